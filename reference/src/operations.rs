//! The public operations, on bytes: lengths first, then the readable test, then
//! the rule. A refusal writes nothing.

use crate::codec::{decode, encode, encode_fresh, Image};
use crate::layout::STEP_SIZE;
use crate::premise::{premise as premise_holds, premise_kept};
use crate::readable::readable;
use crate::record::Step;
use crate::refusal::Reason;
use crate::rules::Sound;
use crate::step::{step as step_world, Done};
use crate::world::{Fresh, World};

/// Bytes of the number that the second form of replay writes.
pub const FIRST_SIZE: usize = 8;

/// What a replay answers: the steps done, and why it stopped, if it did.
#[derive(Clone, Copy, Debug, PartialEq, Eq)]
pub struct Replayed {
    pub done: usize,
    pub stopped: Option<Reason>,
}

impl Replayed {
    pub fn refusal(&self) -> u8 {
        self.stopped.map_or(0, Reason::number)
    }

    fn not_begun(reason: Reason) -> Replayed {
        Replayed {
            done: 0,
            stopped: Some(reason),
        }
    }
}

fn whole(image: &mut [u8]) -> Result<&mut Image, Reason> {
    image.try_into().map_err(|_| Reason::ImageLength)
}

/// The world of a readable image.
fn load(image: &Image) -> Result<World, Reason> {
    let world = decode(image);
    if !readable(&world) {
        return Err(Reason::Unreadable);
    }
    Ok(world)
}

/// Writes the fresh world with these members, f and read size over the buffer.
pub fn fresh(image: &mut [u8], members: u32, f: u8, r: u8) -> Result<(), Reason> {
    let image = whole(image)?;
    encode_fresh(&Fresh::new(members, f, r)?, image);
    Ok(())
}

/// One step on an image.
pub fn step(image: &mut [u8], bytes: &[u8]) -> Result<Done, Reason> {
    let image = whole(image)?;
    let bytes: &[u8; STEP_SIZE] = bytes.try_into().map_err(|_| Reason::StepLength)?;
    let mut world = load(image)?;
    let done = step_world::<Sound>(&mut world, &Step::load(bytes))?;
    encode(&world, image);
    Ok(done)
}

/// Whether the premise holds in the image's world.
pub fn premise(image: &[u8]) -> Result<bool, Reason> {
    let image: &Image = image.try_into().map_err(|_| Reason::ImageLength)?;
    Ok(premise_holds::<Sound>(&load(image)?))
}

/// All steps of the journal up to the first that is refused. The image is
/// tested one time, since an accepted step leaves a readable world readable.
pub fn replay(image: &mut [u8], journal: &[u8]) -> Replayed {
    let image = match whole(image) {
        Ok(image) => image,
        Err(reason) => return Replayed::not_begun(reason),
    };
    if !journal.len().is_multiple_of(STEP_SIZE) {
        return Replayed::not_begun(Reason::JournalLength);
    }
    let mut world = match load(image) {
        Ok(world) => world,
        Err(reason) => return Replayed::not_begun(reason),
    };
    let replayed = replay_world(&mut world, journal);
    if replayed.done > 0 {
        encode(&world, image);
    }
    replayed
}

/// What the second form of replay answers: the replay's answer, and the first
/// accepted step after which the premise does not hold, or 0.
#[derive(Clone, Copy, Debug, PartialEq, Eq)]
pub struct Watched {
    pub replayed: Replayed,
    pub first: u64,
}

/// A replay that also names the first step after which the premise does not
/// hold. That number is written unless the replay does not begin.
pub fn watch(image: &mut [u8], journal: &[u8], first: &mut [u8]) -> Watched {
    watch_by(image, journal, first, premise_kept)
}

/// The same by a full count after each step.
pub fn watch_counted(image: &mut [u8], journal: &[u8], first: &mut [u8]) -> Watched {
    watch_by(image, journal, first, premise_holds::<Sound>)
}

fn watch_by(
    image: &mut [u8],
    journal: &[u8],
    first: &mut [u8],
    holds: fn(&World) -> bool,
) -> Watched {
    let not_begun = |reason| Watched {
        replayed: Replayed::not_begun(reason),
        first: 0,
    };
    let Ok(first): Result<&mut [u8; FIRST_SIZE], _> = first.try_into() else {
        return not_begun(Reason::FirstLength);
    };
    let image = match whole(image) {
        Ok(image) => image,
        Err(reason) => return not_begun(reason),
    };
    if !journal.len().is_multiple_of(STEP_SIZE) {
        return not_begun(Reason::JournalLength);
    }
    let mut world = match load(image) {
        Ok(world) => world,
        Err(reason) => return not_begun(reason),
    };
    let watched = watch_world(&mut world, journal, holds);
    encode(&world, image);
    *first = watched.first.to_le_bytes();
    watched
}

fn watch_world(world: &mut World, journal: &[u8], holds: fn(&World) -> bool) -> Watched {
    let mut first = 0;
    let replayed = replay_each(world, journal, |world, done| {
        if first == 0 && !holds(world) {
            first = done as u64;
        }
    });
    Watched { replayed, first }
}

/// The part of the journal that begins after so many steps. A journal with
/// fewer is of a wrong length.
pub fn resume(image: &mut [u8], journal: &[u8], steps: u64) -> Replayed {
    let whole = journal.len() / STEP_SIZE;
    match usize::try_from(steps) {
        Ok(steps) if steps <= whole => replay(image, &journal[steps * STEP_SIZE..]),
        _ => Replayed::not_begun(Reason::JournalLength),
    }
}

/// The journal on a decoded world.
pub fn replay_world(world: &mut World, journal: &[u8]) -> Replayed {
    replay_each(world, journal, |_, _| {})
}

/// The same; after each accepted step the world is shown, with the steps done.
fn replay_each(world: &mut World, journal: &[u8], mut show: impl FnMut(&World, usize)) -> Replayed {
    let mut done = 0;
    for bytes in journal.chunks_exact(STEP_SIZE) {
        let bytes: &[u8; STEP_SIZE] = bytes.try_into().expect("a chunk has a step's length");
        if let Err(reason) = step_world::<Sound>(world, &Step::load(bytes)) {
            return Replayed {
                done,
                stopped: Some(reason),
            };
        }
        done += 1;
        show(world, done);
    }
    Replayed {
        done,
        stopped: None,
    }
}
