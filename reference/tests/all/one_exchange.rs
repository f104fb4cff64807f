//! Request 3: reading in one exchange.

use reference::entry::Entry;
use reference::history::verdict::examine;
use reference::layout::LAST_MESSAGE;
use reference::record::Step;
use reference::refusal::Reason;
use reference::rules::Sound;
use reference::script::Script;
use reference::sessions::{one_exchange, write_back};
use reference::step::{Close, Deed, Differ};
use reference::world::{message_kind, Client, Message, World};

use crate::act;

/// A read by client 1 on servers 1 to 5, answered by the first three with these
/// entries: 2, 3 and 4. A quorum is three.
fn answered(entries: [Entry; 3]) -> World {
    let mut script = Script::new(0b11111, 0);
    script.act(Step::read(1));
    for (server, entry) in (1..).zip(entries) {
        let answer = script.answer(server, 1);
        script.world.messages[usize::from(answer)].entry = entry;
    }
    script.world
}

fn filled(mut world: World) -> World {
    while world.header.used < LAST_MESSAGE {
        world.send(Message {
            kind: message_kind::READ,
            sender: 16,
            ..Message::default()
        });
    }
    world
}

fn take_all(world: &mut World) -> Result<Deed, Reason> {
    act(world, Step::take(2)).unwrap();
    act(world, Step::take(3)).unwrap();
    act(world, Step::take(4)).map(|done| done.deed)
}

#[test]
fn one_entry_completes_and_sends_nothing() {
    for entry in [Entry::EMPTY, Entry::new(u32::MAX, 3, 9)] {
        for full in [false, true] {
            let mut world = answered([entry; 3]);
            if full {
                world = filled(world);
            }
            let used = world.header.used;
            assert_eq!(take_all(&mut world), Ok(Deed::OneExchange));
            assert_eq!(world.header.used, used);
            let expected = Client {
                kind: 2,
                entry,
                ..Client::default()
            };
            assert_eq!(*world.client(1), expected);
            // The answer is taken like any other.
            assert_eq!(world.messages[1].next, 4);
            assert_eq!(world.messages[4].taken, 1);
        }
    }
}

#[test]
fn any_field_that_differs_is_written_back() {
    let entry = Entry::new(5, 3, 9);
    for (other, differ) in [
        (Entry::new(4, 3, 9), Differ::Stamp),
        (Entry::new(5, 2, 9), Differ::Stamp),
        (Entry::new(5, 3, 8), Differ::Value),
    ] {
        for place in 0..3 {
            let mut entries = [entry; 3];
            entries[place] = other;
            let world = answered(entries);
            let full = Err(Reason::NoNumberToClose(Close::ReadOfRead));
            assert_eq!(take_all(&mut filled(world.clone())), full);
            let mut world = world;
            assert_eq!(take_all(&mut world), Ok(Deed::WroteBack(differ)));
            assert_eq!(world.client(1).phase, 2);
        }
    }
}

#[test]
fn a_servers_second_answer_counts_and_another_views_does_not() {
    // Server 1 answers two times, before and after a WRITE reached it.
    let mut script = Script::new(0b111, 0);
    script.act(Step::read(2));
    script.exchange(1, &[1]);
    script.write(1, 7, &[1, 2]);
    script.exchange(1, &[1]);
    let answer = script.answer(2, 1);
    let done = script.act(Step::take(answer));
    assert_eq!(done.deed, Deed::WroteBack(Differ::Stamp));
    // Server 3 stays in view 1 with the old entry; view 2 agrees.
    let mut script = Script::new(0b111, 0);
    script.write(1, 7, &[1, 2]);
    script.change_view(0b11011, 0, &[1, 2], &[1, 2, 4, 5]);
    script.act(Step::read(2));
    let read = script.request(2);
    script.exchange(read, &[3, 1, 2]);
    let answer = script.answer(4, read);
    assert_eq!(script.act(Step::take(answer)).deed, Deed::OneExchange);
}

#[test]
fn a_write_goes_on_all_the_same() {
    let mut script = Script::new(0b11111, 0);
    script.act(Step::write(1, 7));
    script.exchange(1, &[1, 2, 3]);
    assert_eq!(script.world.client(1).phase, 2);
}

#[test]
fn equality_survives_a_change_of_view() {
    for journal in [one_exchange(), write_back()] {
        let verdict = examine::<Sound>(&journal);
        assert!(verdict.premise && verdict.order && verdict.by_stamp);
    }
}
