//! The reference's tests: the rules by example and by trap, then what is built
//! on them.

mod compare;
mod generator;
mod giving_up;
mod history;
mod ideas;
mod judge;
mod load;
mod one_exchange;
mod phase;
mod program;
mod quorum;
mod readable;
mod refusals;
mod restart;
mod shorten;
mod single;
mod traps;
mod vouch;
mod watch;

use reference::codec::image_of;
use reference::operations;
use reference::readable::readable;
use reference::record::Step;
use reference::refusal::Reason;
use reference::rules::Sound;
use reference::step::{step, Done};
use reference::world::World;

/// The step on the world; a refused one must leave it as it was, an accepted
/// one must leave it readable, and the image's step must do the same.
fn act(world: &mut World, record: Step) -> Result<Done, Reason> {
    assert!(readable(world), "the step is tried on a readable world");
    let before = world.clone();
    let mut image = image_of(world);
    let outcome = step::<Sound>(world, &record);
    assert_eq!(operations::step(&mut image[..], &record.bytes()), outcome);
    assert!(image == image_of(world), "image and world go the same way");
    if outcome.is_err() {
        assert!(*world == before, "a refusal changes nothing");
    }
    assert!(readable(world), "a step leaves a readable world");
    outcome
}

/// The number of the refusal, or 0.
fn number(outcome: Result<Done, Reason>) -> u8 {
    outcome.map_or_else(Reason::number, |_| 0)
}
