//! Request 6: the short journal behind a refusal.

use reference::codec::image_of;
use reference::generate::stops::{many_passes, stopped, STOPS};
use reference::journal::Journal;
use reference::layout::{IMAGE_SIZE, STEP_SIZE};
use reference::record::Step;
use reference::refusal::Reason;
use reference::shorten::{shorten, shortened, stop, without, Shortened, STEPS};
use reference::world::World;
use reference::xorshift::Draws;

/// The short journal by the operation, which must be that of `shortened`, stop
/// with the same refusal, lose it with any single step, and be a part of the
/// journal in the same sequence.
fn short(journal: &Journal) -> Shortened {
    let fresh = World::fresh(journal.members, journal.f, journal.r).unwrap();
    let bytes = journal.bytes();
    let mut image = vec![7; IMAGE_SIZE];
    let mut buffer = vec![7; bytes.len()];
    let Journal { members, f, r, .. } = *journal;
    let steps = shorten(&mut image, members, f, r, &bytes, &mut buffer).unwrap();
    assert!(image == image_of(&fresh)[..]);
    let short = shortened(&fresh, &bytes).unwrap();
    let end = steps * STEP_SIZE;
    assert_eq!(buffer[..end], short.journal);
    assert!(buffer[end..].iter().all(|byte| *byte == 0));
    let number = stop(&fresh, &bytes);
    assert_eq!(stop(&fresh, &short.journal), number);
    for place in 0..steps {
        assert_ne!(stop(&fresh, &without(&short.journal, place)), number);
    }
    let mut rest = journal.steps.iter();
    for step in short.journal.chunks(STEP_SIZE) {
        assert!(
            rest.any(|other| other == step),
            "a step of the journal, in its turn"
        );
    }
    short
}

#[test]
fn long_journals() {
    let mut draws = Draws::new(31);
    let mut several = 0;
    for number in 0..40 {
        let steps = draws.between(401, STEPS);
        let journal = stopped(&mut draws, STOPS[number % STOPS.len()], steps);
        let short = short(&journal);
        several += u32::from(short.passes > 2);
    }
    assert!(several >= 1, "{several} took several passes");
}

#[test]
fn passes_go_on_until_one_drops_nothing() {
    for times in [1, 2, 5, 20] {
        let short = short(&many_passes(times));
        assert_eq!(short.journal, Step::give_up(1).bytes());
        assert!(short.passes >= 3, "{}", short.passes);
    }
}

#[test]
fn steps_that_matter_stay_in_their_sequence() {
    // Client 1 is busy; all else has nothing to do with it.
    let journal = Journal::new(0b111, 0)
        .then(Step::read(2))
        .then(Step::write(1, 7))
        .then(Step::deliver(1, 1))
        .then(Step::fault(3))
        .then(Step::read(1))
        .then(Step::read(3));
    let kept: Vec<u8> = [Step::write(1, 7), Step::read(1)]
        .iter()
        .flat_map(Step::bytes)
        .collect();
    assert_eq!(short(&journal).journal, kept);
}

#[test]
fn another_step_may_stop_with_the_same_number() {
    // Without the first read the second give-up is not reached: the first one
    // stops the replay with the same number.
    let journal = Journal::new(0b1, 0)
        .then(Step::read(1))
        .then(Step::give_up(1))
        .then(Step::give_up(1));
    assert_eq!(short(&journal).journal, Step::give_up(1).bytes());
}

#[test]
fn lengths_then_8_then_15() {
    let journal = Journal::new(0b1, 0).then(Step::read(1)).bytes();
    let call = |image: usize, members: u32, journal: &[u8], buffer: usize| {
        let mut image = vec![7; image];
        let mut buffer = vec![7; buffer];
        let answer = shorten(&mut image, members, 0, 0, journal, &mut buffer);
        assert!(buffer.iter().all(|byte| *byte == 7), "the buffer stays");
        if answer != Err(Reason::NoStop) {
            assert!(image.iter().all(|byte| *byte == 7), "the image stays");
        } else {
            let fresh = World::fresh(members, 0, 0).unwrap();
            assert!(image == image_of(&fresh)[..], "the fresh world");
        }
        answer
    };
    let whole = IMAGE_SIZE;
    assert_eq!(call(whole - 1, 0, &journal, 12), Err(Reason::ImageLength));
    assert_eq!(
        call(whole, 0, &journal[1..], 11),
        Err(Reason::JournalLength)
    );
    assert_eq!(call(whole, 0, &journal, 24), Err(Reason::ShorterLength));
    let long = vec![0; (STEPS + 1) * STEP_SIZE];
    assert_eq!(call(whole, 0, &long, long.len()), Err(Reason::TooManySteps));
    assert_eq!(call(whole, 0, &journal, 12), Err(Reason::SizeRule));
    assert_eq!(call(whole, 1, &journal, 12), Err(Reason::NoStop));
    assert_eq!(call(whole, 1, &[], 0), Err(Reason::NoStop));
}

#[test]
fn as_many_steps_as_may_be() {
    // Steps of any bytes may be in it: the first stops the replay.
    let journal = Journal {
        members: 0b1,
        steps: vec![vec![0xff; STEP_SIZE]; STEPS],
        ..Journal::default()
    };
    assert_eq!(short(&journal).journal, [0xff; STEP_SIZE]);
}
