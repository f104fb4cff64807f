//! Request 7: the premise without a walk.

use reference::codec::image_of;
use reference::generate::journals::journal;
use reference::generate::profile::PROFILES;
use reference::generate::specimen::specimen;
use reference::journal::Journal;
use reference::layout::STEP_SIZE;
use reference::operations::{self, watch, FIRST_SIZE};
use reference::premise::{faulty_holders, premise, premise_kept};
use reference::readable::{broken, Clause};
use reference::record::Step;
use reference::refusal::Reason;
use reference::rules::Sound;
use reference::script::Script;
use reference::step::step;
use reference::world::World;

/// The step named by a watched replay, and its refusal.
fn watched(world: &World, journal: &[u8]) -> (u64, u8) {
    let mut image = image_of(world);
    let mut first = [0xff; FIRST_SIZE];
    let watched = watch(&mut image[..], journal, &mut first);
    assert_eq!(u64::from_le_bytes(first), watched.first);
    let mut other = image_of(world);
    assert_eq!(
        operations::replay(&mut other[..], journal),
        watched.replayed
    );
    assert!(image == other, "the same image");
    (watched.first, watched.replayed.refusal())
}

/// The same by a full count after each step.
fn counted(world: &World, journal: &[u8]) -> u64 {
    let mut world = world.clone();
    for (number, bytes) in (1..).zip(journal.as_chunks::<STEP_SIZE>().0) {
        if step::<Sound>(&mut world, &Step::load(bytes)).is_err() {
            return 0;
        }
        assert_eq!(world.holders, faulty_holders(&world));
        assert_eq!(premise_kept(&world), premise::<Sound>(&world));
        if !premise::<Sound>(&world) {
            return number;
        }
    }
    0
}

#[test]
fn the_answer_is_the_full_counts() {
    let mut named = 0;
    for profile in PROFILES {
        for seed in 0..12 {
            let mut drawn = journal::<Sound>(seed, profile);
            drawn.steps.retain(|step| step.len() == STEP_SIZE);
            let fresh = World::fresh(drawn.members, drawn.f, drawn.r).unwrap();
            let bytes = drawn.bytes();
            let (first, _) = watched(&fresh, &bytes);
            assert_eq!(first, counted(&fresh, &bytes), "{} {seed}", profile.name);
            named += u32::from(first != 0);
        }
    }
    assert!(named > 15, "{named} break the premise");
}

#[test]
fn by_a_fault_and_by_a_start() {
    let fresh = World::fresh(0b1111, 1, 0).unwrap();
    let by_fault = Journal::new(0b1111, 1)
        .then(Step::fault(1))
        .then(Step::read(1))
        .then(Step::fault(2))
        .then(Step::read(2));
    assert_eq!(watched(&fresh, &by_fault.bytes()), (3, 0));
    let mut script = Script::new(0b1111, 1);
    script.act(Step::fault(5));
    script.act(Step::fault(6));
    let start = script.change_view(0b111100, 1, &[1, 2, 3], &[5]);
    assert_eq!(watched(&fresh, &script.journal.bytes()), (0, 0));
    script.act(Step::deliver(6, start));
    let steps = script.journal.steps.len() as u64;
    script.act(Step::read(1));
    assert_eq!(watched(&fresh, &script.journal.bytes()), (steps, 0));
    assert_eq!(script.world.holders[..3], [0, 2, 0]);
}

#[test]
fn beside_a_stop_too() {
    let fresh = World::fresh(0b1, 0, 0).unwrap();
    let journal = Journal::new(0b1, 0)
        .then(Step::read(1))
        .then(Step::fault(1))
        .then(Step::fault(1))
        .then(Step::read(2));
    assert_eq!(watched(&fresh, &journal.bytes()), (2, 6));
    assert_eq!(watched(&fresh, &journal.bytes()[STEP_SIZE..]), (1, 6));
    // A step that is refused does not count.
    assert_eq!(watched(&fresh, &journal.bytes()[..STEP_SIZE]), (0, 0));
}

#[test]
fn a_premise_that_fails_at_the_start_is_named_with_the_first_step() {
    let mut world = World::fresh(0b1, 0, 0).unwrap();
    step::<Sound>(&mut world, &Step::fault(1)).unwrap();
    assert_eq!(watched(&world, &[]), (0, 0));
    assert_eq!(watched(&world, &Step::fault(1).bytes()), (0, 6));
    let two = [Step::read(1).bytes(), Step::read(1).bytes()].concat();
    assert_eq!(watched(&world, &two), (1, 4));
}

#[test]
fn one_and_two_write_nothing() {
    let world = World::fresh(0b1, 0, 0).unwrap();
    let call = |image: &[u8], journal: &[u8], length: usize| {
        let mut after = image.to_vec();
        let mut first = vec![0xff; length];
        let watched = watch(&mut after, journal, &mut first);
        assert!(after == image && first.iter().all(|byte| *byte == 0xff));
        assert_eq!(watched.replayed.done, 0);
        watched.replayed.stopped
    };
    let image = image_of(&world);
    let read = Step::read(1).bytes();
    for length in [0, 7, 9] {
        assert_eq!(call(&image[..], &read, length), Some(Reason::FirstLength));
    }
    assert_eq!(call(&image[1..], &read, 8), Some(Reason::ImageLength));
    assert_eq!(call(&image[..], &read[1..], 8), Some(Reason::JournalLength));
    let mut other = world;
    other.holders[0] = 1;
    assert_eq!(
        call(&image_of(&other)[..], &read, 8),
        Some(Reason::Unreadable)
    );
}

#[test]
fn a_byte_that_differs_is_unreadable() {
    // Server 3 is faulty and holds the keys of views 1 and 2.
    let world = specimen();
    assert_eq!(world.holders[..4], [1, 1, 0, 0]);
    for view in 0..32 {
        for count in [0, 1, 2, 255] {
            let mut other = world.clone();
            other.holders[view] = count;
            let same = other.holders == world.holders;
            let expected: &[Clause] = if same { &[] } else { &[Clause::Holders] };
            assert_eq!(broken(&other), expected);
        }
    }
}
