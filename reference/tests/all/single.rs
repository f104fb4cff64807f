//! Single machines do on their records what steps do in the world.

use reference::codec::Record;
use reference::entry::Entry;
use reference::generate::steps::aimed_step_of;
use reference::generate::worlds::world;
use reference::layout::{ADMINISTRATOR_AT, ADMINISTRATOR_SIZE};
use reference::record::{step_kind, Step};
use reference::refusal::Reason;
use reference::rules::Sound;
use reference::single::{administrator_call, client_call, server_call};
use reference::step::{step, Close, Deed};
use reference::world::{message_kind, View, World};
use reference::xorshift::Draws;

/// The step on the world; none if it is refused with 10, which no machine
/// knows.
fn in_world(before: &World, record: &Step) -> Option<Result<World, u8>> {
    let mut world = before.clone();
    match step::<Sound>(&mut world, record) {
        Ok(_) => Some(Ok(world)),
        Err(reason) if reason.number() == 10 => None,
        Err(reason) => Some(Err(reason.number())),
    }
}

#[test]
fn a_server_does_what_deliver_does() {
    let mut draws = Draws::new(11);
    let mut done = 0;
    for _ in 0..3000 {
        let before = world(&mut draws);
        let record = aimed_step_of(step_kind::DELIVER, &before, &mut draws);
        let Some(message) = before.message(record.message) else {
            continue;
        };
        let Some(expected) = in_world(&before, &record) else {
            continue;
        };
        let member = message.view != 0 && before.view(message.view).has_member(record.who);
        let head = [step_kind::DELIVER, u8::from(member), 0, 0];
        let asked = [&head[..], &message.bytes()].concat();
        let mut server = before.server(record.who).bytes();
        match (server_call(&mut server, &asked), expected) {
            (Ok(answers), Ok(after)) => {
                assert_eq!(server, after.server(record.who).bytes());
                assert_eq!(answers, after.header.used > before.header.used);
                done += 1;
            }
            (Err(reason), Err(number)) => {
                assert_eq!(reason.number(), number);
                assert_eq!(server, before.server(record.who).bytes());
            }
            (one, other) => panic!("{one:?} and {:?}", other.map(|_| ())),
        }
    }
    assert!(done > 500, "{done} done");
}

#[test]
fn a_server_lies_where_a_false_answer_is_accepted() {
    let mut draws = Draws::new(12);
    let mut done = 0;
    for _ in 0..2000 {
        let before = world(&mut draws);
        let record = aimed_step_of(step_kind::FALSE_ANSWER, &before, &mut draws);
        let Some(message) = before.message(record.message) else {
            continue;
        };
        let Some(expected) = in_world(&before, &record) else {
            continue;
        };
        let shown = before.message(record.source);
        let source = record.source == 0 || shown.is_some_and(|m| m.kind == message_kind::WRITE);
        let head = [step_kind::FALSE_ANSWER, u8::from(source), record.view, 0];
        let asked = [&head[..], &message.bytes()].concat();
        let mut server = before.server(record.who).bytes();
        let answer = server_call(&mut server, &asked);
        assert_eq!(
            answer.map_err(Reason::number),
            expected.map(|_| false),
            "{record:?}"
        );
        assert_eq!(server, before.server(record.who).bytes());
        done += u32::from(answer.is_ok());
    }
    assert!(done > 200, "{done} done");
}

/// Whether the step closed a client's phase.
fn closes(deed: Deed) -> bool {
    match deed {
        Deed::Closed(close) => close != Close::End,
        Deed::OneExchange | Deed::WroteBack(_) | Deed::WroteBackOne => true,
        _ => false,
    }
}

#[test]
fn a_client_does_what_begins_and_closes_do() {
    let mut draws = Draws::new(13);
    let (mut began, mut closed) = (0, 0);
    for _ in 0..2000 {
        let before = world(&mut draws);
        let kind = *draws.pick(&[1, 2, 4, 4, 4, 4]).unwrap();
        let record = aimed_step_of(kind, &before, &mut draws);
        let mut after = before.clone();
        let outcome = step::<Sound>(&mut after, &record);
        let [n0, n1] = (before.header.used + 1).to_le_bytes();
        let mut one_entry = 0;
        let (number, head, entry) = match (kind, outcome) {
            (1 | 2, _) if before.header.used < 1023 => {
                let entry = Entry::new(0, 0, record.value);
                (record.who, [kind, 0, n0, n1], entry)
            }
            (4, Ok(done)) if closes(done.deed) => {
                let request = before.messages[usize::from(record.message)].request;
                let number = before.messages[usize::from(request)].sender;
                // What is written is one count above the largest entry.
                let mut entry = after.client(number).entry;
                if done.deed == Deed::Closed(Close::ReadOfWrite) {
                    entry.count -= 1;
                    assert_eq!(after.client(number).largest, entry.count + 1);
                }
                one_entry = u8::from(done.deed == Deed::OneExchange);
                (number, [kind, number, n0, n1], entry)
            }
            _ => continue,
        };
        let mut client = before.client(number).bytes();
        let asked = [&head[..], &entry.bytes(), &[one_entry]].concat();
        match (client_call(&mut client, &asked), outcome) {
            (Ok(complete), Ok(done)) => {
                assert_eq!(client, after.client(number).bytes());
                assert_eq!(complete, done.completed != 0);
                *(if kind == 4 { &mut closed } else { &mut began }) += 1;
            }
            (one, other) => assert_eq!(one.unwrap_err(), other.unwrap_err()),
        }
    }
    assert!(
        began > 100 && closed > 200,
        "{began} began, {closed} closed"
    );
}

#[test]
fn the_administrator_does_what_new_view_a_restart_and_a_closing_end_do() {
    let mut draws = Draws::new(14);
    let end = ADMINISTRATOR_AT + ADMINISTRATOR_SIZE;
    let (mut called, mut advanced, mut restarted) = (0, 0, 0);
    for _ in 0..3000 {
        let before = world(&mut draws);
        let kind = *draws.pick(&[4, 4, 4, 7, 9]).unwrap();
        let record = aimed_step_of(kind, &before, &mut draws);
        let mut after = before.clone();
        let outcome = step::<Sound>(&mut after, &record);
        let [n0, n1] = (before.header.used + 1).to_le_bytes();
        let view = View {
            members: record.value,
            f: record.f,
            r: record.who,
            ..View::default()
        };
        let asked = match (kind, outcome) {
            (7, _) if before.header.used < 1023 => [&[7, 0, n0, n1][..], &view.bytes()].concat(),
            (9, _) => [&[9, 0, 0, 0][..], &view.bytes()].concat(),
            (4, Ok(done)) if done.deed == Deed::Closed(Close::End) => {
                [&[4, 0, 0, 0][..], &View::default().bytes()].concat()
            }
            _ => continue,
        };
        let mut bytes = before.header.bytes()[ADMINISTRATOR_AT..end].to_vec();
        match (administrator_call(&mut bytes, &asked), outcome) {
            (Ok(()), Ok(_)) => {
                assert_eq!(bytes, after.header.bytes()[ADMINISTRATOR_AT..end]);
                *(match kind {
                    4 => &mut advanced,
                    7 => &mut called,
                    _ => &mut restarted,
                }) += 1;
            }
            (one, other) => assert_eq!(one.unwrap_err(), other.unwrap_err()),
        }
    }
    assert!(
        called > 50 && advanced > 20 && restarted > 50,
        "{called}, {advanced}, {restarted}"
    );
}

#[test]
fn a_host_needs_a_number_only_where_it_sends() {
    let close_with = |record: &mut Vec<u8>, number: u16, one_entry: u8| {
        let [n0, n1] = number.to_le_bytes();
        let asked = [&[4, 1, n0, n1][..], &Entry::EMPTY.bytes(), &[one_entry]].concat();
        client_call(record, &asked)
    };
    let close = |record: &mut Vec<u8>, number: u16| close_with(record, number, 0);
    // A read in one exchange sends nothing; a write sends all the same.
    let read = [&[1, 2, 1, 0][..], &Entry::EMPTY.bytes(), &[9, 0, 0, 0]].concat();
    let mut record = read.clone();
    assert_eq!(close_with(&mut record, 0, 1), Ok(true));
    assert_eq!(record, [&[0, 2][..], &[0; 14], &[9, 0, 0, 0]].concat());
    assert_eq!(close(&mut read.clone(), 0), Err(Reason::CallRange));
    assert_eq!(close_with(&mut read.clone(), 1, 2), Err(Reason::CallRange));
    let reading = [&[1, 1, 1, 0][..], &Entry::new(0, 0, 7).bytes(), &[0; 4]].concat();
    for number in [0, 1024, u16::MAX] {
        assert_eq!(close(&mut reading.clone(), number), Err(Reason::CallRange));
        let answer = close_with(&mut reading.clone(), number, 1);
        assert_eq!(answer, Err(Reason::CallRange));
    }
    let mut record = reading;
    assert_eq!(close(&mut record, 1023), Ok(false));
    assert_eq!(record[4..16], Entry::new(1, 1, 7).bytes());
    assert_eq!(record[16..], [1, 0, 0, 0]);
    assert_eq!(close(&mut record, 0), Ok(true));
    assert_eq!(record[..4], [0, 1, 0, 0]);
    assert_eq!(close(&mut record, 0), Err(Reason::NothingOpen));
}
