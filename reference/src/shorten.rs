//! The short journal behind a refusal: steps are dropped, from last to first,
//! where the replay of the rest stops with the same refusal number, again until
//! a pass drops nothing.

use crate::codec::{encode, Image};
use crate::layout::STEP_SIZE;
use crate::operations::replay_world;
use crate::refusal::Reason;
use crate::world::World;

/// The most steps of a journal to be shortened.
pub const STEPS: usize = 512;

/// A short journal, and how many passes it took, the last one included, which
/// dropped nothing.
pub struct Shortened {
    pub journal: Vec<u8>,
    pub passes: usize,
}

/// The operation: the short journal's number of steps. The buffer holds it, and
/// zero after it. Once 1 and 8 are passed the image holds the fresh world.
pub fn shorten(
    image: &mut [u8],
    members: u32,
    f: u8,
    r: u8,
    journal: &[u8],
    shorter: &mut [u8],
) -> Result<usize, Reason> {
    let image: &mut Image = image.try_into().map_err(|_| Reason::ImageLength)?;
    if !journal.len().is_multiple_of(STEP_SIZE) {
        return Err(Reason::JournalLength);
    }
    if journal.len() / STEP_SIZE > STEPS {
        return Err(Reason::TooManySteps);
    }
    if shorter.len() != journal.len() {
        return Err(Reason::ShorterLength);
    }
    let fresh = World::fresh(members, f, r)?;
    encode(&fresh, image);
    let short = shortened(&fresh, journal).ok_or(Reason::NoStop)?.journal;
    shorter.fill(0);
    shorter[..short.len()].copy_from_slice(&short);
    Ok(short.len() / STEP_SIZE)
}

/// The number that the journal's replay stops with, or 0.
pub fn stop(fresh: &World, journal: &[u8]) -> u8 {
    replay_world(&mut fresh.clone(), journal).refusal()
}

/// The journal without the step at this place.
pub fn without(journal: &[u8], place: usize) -> Vec<u8> {
    let at = place * STEP_SIZE;
    [&journal[..at], &journal[at + STEP_SIZE..]].concat()
}

/// The short journal, or none if the replay stops on no refusal.
pub fn shortened(fresh: &World, journal: &[u8]) -> Option<Shortened> {
    let number = stop(fresh, journal);
    if number == 0 {
        return None;
    }
    let mut journal = journal.to_vec();
    let mut passes = 0;
    loop {
        passes += 1;
        let shorter = pass(fresh, &journal, number);
        if shorter.len() == journal.len() {
            return Some(Shortened { journal, passes });
        }
        journal = shorter;
    }
}

/// One pass from the last step to the first.
fn pass(fresh: &World, journal: &[u8], number: u8) -> Vec<u8> {
    let mut journal = journal.to_vec();
    for place in (0..journal.len() / STEP_SIZE).rev() {
        let rest = without(&journal, place);
        if stop(fresh, &rest) == number {
            journal = rest;
        }
    }
    journal
}
