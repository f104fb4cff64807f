//! Request 1: giving up an operation.

use reference::codec::Record;
use reference::entry::Entry;
use reference::generate::specimen::specimen;
use reference::history::operations::{ordered, run, Kind};
use reference::history::verdict::examine;
use reference::readable::readable;
use reference::record::Step;
use reference::refusal::Reason;
use reference::rules::Sound;
use reference::script::Script;
use reference::sessions::{given_up, given_up_surfaces};
use reference::world::{Client, World};

use crate::{act, number};

#[test]
fn an_open_phase_becomes_idle_and_only_the_largest_count_stays() {
    let mut script = Script::new(0b111, 0);
    script.write(1, 7, &[1, 2]);
    for phases in 0..2 {
        for begin in [Step::write(1, 8), Step::read(1)] {
            let mut script = script.clone();
            script.act(begin);
            if phases == 1 {
                script.exchange(script.request(1), &[1, 3]);
            }
            let largest = script.world.client(1).largest;
            let messages = script.world.messages;
            script.act(Step::give_up(1));
            let expected = Client {
                largest,
                ..Client::default()
            };
            assert_eq!(*script.world.client(1), expected);
            assert!(script.world.messages == messages);
            assert_eq!(largest, if phases == 1 && begin.kind == 1 { 2 } else { 1 });
        }
    }
}

#[test]
fn an_idle_client_is_12_after_3() {
    let mut world = World::fresh(0b1, 0, 0).unwrap();
    assert_eq!(act(&mut world, Step::give_up(1)), Err(Reason::ClientIdle));
    assert_eq!(number(act(&mut world, Step::give_up(0))), 3);
    assert_eq!(number(act(&mut world, Step::give_up(17))), 3);
    let with_value = Step {
        value: 1,
        ..Step::give_up(1)
    };
    assert_eq!(number(act(&mut world, with_value)), 3);
    act(&mut world, Step::read(1)).unwrap();
    act(&mut world, Step::give_up(1)).unwrap();
    assert_eq!(number(act(&mut world, Step::give_up(1))), 12);
}

#[test]
fn the_count_is_above_both() {
    for (own, read, given) in [(0, 0, 1), (5, 2, 6), (2, 5, 6), (5, 5, 6)] {
        let mut script = Script::new(0b1, 0);
        script.world.client_mut(1).largest = own;
        script.act(Step::write(1, 7));
        let answer = script.answer(1, 1);
        script.world.messages[usize::from(answer)].entry = Entry::new(read, 3, 9);
        script.act(Step::take(answer));
        let client = script.world.client(1);
        assert_eq!((client.entry.count, client.largest), (given, given));
    }
    // A write-back is no write of its own.
    let mut script = Script::new(0b1, 0);
    script.act(Step::read(1));
    let answer = script.answer(1, 1);
    script.world.messages[usize::from(answer)].entry = Entry::new(9, 3, 9);
    script.act(Step::take(answer));
    assert_eq!(script.world.client(1).largest, 0);
}

#[test]
fn eleven_is_judged_on_the_new_count() {
    let last = u32::MAX;
    for (own, read, refusal) in [
        (last, 0, 11),
        (0, last, 11),
        (last, last, 11),
        (last - 1, 0, 0),
        (0, last - 1, 0),
    ] {
        let mut script = Script::new(0b1, 0);
        script.world.client_mut(1).largest = own;
        script.act(Step::write(1, 7));
        let answer = script.answer(1, 1);
        script.world.messages[usize::from(answer)].entry = Entry::new(read, 3, 9);
        assert_eq!(number(act(&mut script.world, Step::take(answer))), refusal);
    }
    // A read has no count to give.
    let mut script = Script::new(0b1, 0);
    script.world.client_mut(1).largest = last;
    script.act(Step::read(1));
    let answer = script.answer(1, 1);
    assert_eq!(number(act(&mut script.world, Step::take(answer))), 0);
}

#[test]
fn late_answers_to_a_given_up_request_are_7() {
    let mut script = Script::new(0b111, 0);
    script.act(Step::read(1));
    let answer = script.answer(1, 1);
    script.act(Step::give_up(1));
    assert_eq!(
        act(&mut script.world, Step::take(answer)),
        Err(Reason::NobodyWaits)
    );
    // Also once the client waits for another request.
    script.act(Step::read(1));
    assert_eq!(
        act(&mut script.world, Step::take(answer)),
        Err(Reason::NobodyWaits)
    );
}

#[test]
fn any_largest_count_is_readable() {
    for largest in [1, 256, u32::MAX] {
        let mut world = specimen();
        for client in 1..=16 {
            world.client_mut(client).largest = largest;
        }
        assert!(readable(&world));
    }
    assert_eq!(
        Client {
            largest: 0x04030201,
            ..Client::default()
        }
        .bytes()[16..],
        [1, 2, 3, 4]
    );
}

#[test]
fn a_given_up_operation_is_unfinished_and_a_client_may_have_several() {
    let run = run::<Sound>(&given_up());
    let unfinished: Vec<_> = run
        .operations
        .iter()
        .filter(|operation| !operation.is_completed())
        .map(|operation| (operation.client, operation.kind, operation.entry))
        .collect();
    assert_eq!(
        unfinished,
        [
            (1, Kind::Write, Some(Entry::new(1, 1, 1000))),
            (2, Kind::Read, None),
            (1, Kind::Write, None),
        ]
    );
    assert_eq!(ordered(&run.operations).len(), 4);
    // One that surfaces is in the order, the next write of its client after it.
    let verdict = examine::<Sound>(&given_up_surfaces());
    assert!(verdict.premise && verdict.order && verdict.by_stamp && verdict.never_again);
    let surfaced: Vec<_> = verdict
        .operations
        .iter()
        .filter(|operation| !operation.is_completed())
        .map(|operation| operation.entry)
        .collect();
    assert_eq!(surfaced, [Some(Entry::new(1, 1, 1000))]);
}
