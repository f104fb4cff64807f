//! A load that anyone can make again: the journal of a seed and a number of
//! steps.

use crate::layout::STEP_SIZE;
use crate::record::{ranges, step_kind, Field, Step, FIELDS};
use crate::refusal::Reason;

/// Marsaglia's 32-bit xorshift. A draw is the state after the shifts.
pub struct Xorshift {
    state: u32,
}

impl Xorshift {
    /// A seed of 0 stands for 1.
    pub fn new(seed: u32) -> Xorshift {
        Xorshift { state: seed.max(1) }
    }

    pub fn draw(&mut self) -> u32 {
        self.state ^= self.state << 13;
        self.state ^= self.state >> 17;
        self.state ^= self.state << 5;
        self.state
    }
}

/// Kinds are drawn from 1 to 8.
const KINDS: u32 = 8;
/// A new view's f is the remainder by 4.
const THRESHOLDS: u64 = 4;

/// The next step: its kind, then each field that the kind uses takes one draw.
pub fn next_step(draws: &mut Xorshift) -> Step {
    let mut step = Step {
        kind: (draws.draw() % KINDS) as u8 + 1,
        ..Step::default()
    };
    let ranges = ranges(step.kind).expect("kinds from 1 to 8 are known");
    for (field, range) in FIELDS.into_iter().zip(ranges) {
        // A new view's read size is 0 without a draw.
        if step.kind == step_kind::NEW_VIEW && field == Field::Who {
            continue;
        }
        if let Some((least, largest)) = *range {
            let size = match field {
                Field::F => THRESHOLDS,
                _ => u64::from(largest) - u64::from(least) + 1,
            };
            let drawn = (u64::from(draws.draw()) % size) as u32;
            step.set(field, drawn + least);
        }
    }
    step
}

/// Writes so many steps over the buffer.
pub fn load(journal: &mut [u8], seed: u32, steps: u32) -> Result<(), Reason> {
    if journal.len() as u64 != STEP_SIZE as u64 * u64::from(steps) {
        return Err(Reason::JournalLength);
    }
    let mut draws = Xorshift::new(seed);
    for bytes in journal.chunks_exact_mut(STEP_SIZE) {
        bytes.copy_from_slice(&next_step(&mut draws).bytes());
    }
    Ok(())
}
