//! Long journals whose replay stops with a given refusal at their last step.

use crate::generate::journals::journal;
use crate::generate::profile::{Profile, FULL, RUSH, WRECK};
use crate::generate::steps::{aimed_step, spoiled_step};
use crate::history::operations::run;
use crate::journal::Journal;
use crate::layout::STEP_SIZE;
use crate::record::Step;
use crate::rules::Sound;
use crate::step::step;
use crate::world::World;
use crate::xorshift::Draws;

/// The refusals that a step of a run can meet within some hundred steps.
pub const STOPS: [u8; 8] = [3, 4, 5, 6, 7, 8, 9, 12];

/// A journal of so many steps, the last of which is refused with this number.
pub fn stopped(draws: &mut Draws, number: u8, steps: usize) -> Journal {
    loop {
        let profile = Profile {
            steps: steps - 1,
            operations: usize::MAX,
            ..draws
                .pick(&[&FULL, &RUSH, &WRECK])
                .expect("there are profiles")
                .with_odd(false)
        };
        let mut drawn = journal::<Sound>(draws.word(), &profile);
        let world = run::<Sound>(&drawn).world;
        if drawn.steps.len() == steps - 1 {
            if let Some(last) = refused(&world, draws, number) {
                drawn.steps.push(last);
                return drawn;
            }
        }
    }
}

/// A step that this world refuses with the number, if one is soon found.
fn refused(world: &World, draws: &mut Draws, number: u8) -> Option<Vec<u8>> {
    (0..400)
        .map(|_| {
            if number == 3 {
                spoiled_step(world, draws)
            } else {
                aimed_step(world, draws).bytes().to_vec()
            }
        })
        .find(|bytes| {
            let bytes: &[u8; STEP_SIZE] = bytes.as_slice().try_into().expect("a whole step");
            step::<Sound>(&mut world.clone(), &Step::load(bytes))
                .is_err_and(|reason| reason.number() == number)
        })
}

/// A journal that needs several passes: before the first give-up of an idle
/// client can be dropped, the read that makes the client busy must be.
pub fn many_passes(times: usize) -> Journal {
    let mut journal = Journal::new(0b1, 0);
    for _ in 0..times {
        journal.push(Step::read(1));
        journal.push(Step::give_up(1));
    }
    journal.then(Step::give_up(1))
}
