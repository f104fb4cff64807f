//! The answers to one request as a list, and the record that is lent.

use reference::codec::Record;
use reference::entry::Entry;
use reference::layout::ENTRY_SIZE;
use reference::phase::{answer, open, Phase, Verdict, HEAD_SIZE, PHASE_SIZE, TALLY_SIZE};
use reference::refusal::Reason;
use reference::world::{message_kind, Message, View};

const REQUEST: u16 = 9;
const OLD: Entry = Entry::new(1, 1, 7);
const NEW: Entry = Entry::new(2, 1, 8);

/// Servers 1 to 4 with f 1: three close a phase.
fn four() -> View {
    View {
        members: 0b1111,
        f: 1,
        ..View::default()
    }
}

/// Servers 1 to 10 with f 1: three close READ, nine WRITE and END.
fn ten() -> View {
    View {
        members: 0x3ff,
        f: 1,
        r: 3,
        ..View::default()
    }
}

fn of(sender: u8, view: u8, entry: Entry) -> Message {
    Message {
        kind: message_kind::ANSWER,
        sender,
        view,
        request: REQUEST,
        entry,
        ..Message::default()
    }
}

/// What the last of these answers does; all others leave the phase open. The
/// list and the record go the same way.
fn last(kind: u8, own: u8, view: View, answers: &[Message]) -> Verdict {
    let mut list = Phase::open(kind, own, REQUEST).unwrap();
    let mut record = [0xff; PHASE_SIZE];
    open(&mut record, kind, own, REQUEST).unwrap();
    let mut verdict = Verdict::Open;
    for message in answers {
        assert_eq!(verdict, Verdict::Open);
        verdict = list.take(message, &view).unwrap();
        let given = [&message.bytes()[..], &view.bytes()].concat();
        let mut entry = [0xff; ENTRY_SIZE];
        assert_eq!(answer(&mut record, &given, &mut entry), Ok(verdict));
        assert_eq!(record[..], list.record()[..]);
        if verdict == Verdict::Open {
            assert_eq!(entry, [0xff; ENTRY_SIZE]);
        }
    }
    verdict
}

fn closed(entry: Entry, may_end: bool) -> Verdict {
    Verdict::Closed { entry, may_end }
}

#[test]
fn servers_are_counted_and_not_answers() {
    let thrice = [of(1, 1, OLD), of(1, 1, OLD), of(1, 1, OLD), of(2, 1, OLD)];
    assert_eq!(last(1, 0, four(), &thrice), Verdict::Open);
    let third = [&thrice[..], &[of(3, 1, OLD)]].concat();
    assert_eq!(last(1, 0, four(), &third), closed(OLD, true));
}

#[test]
fn views_are_counted_apart() {
    let mixed = [of(1, 1, OLD), of(2, 1, OLD), of(3, 2, NEW)];
    assert_eq!(last(1, 0, four(), &mixed), Verdict::Open);
    let more = [&mixed[..], &[of(4, 1, OLD)]].concat();
    assert_eq!(last(1, 0, four(), &more), closed(OLD, true));
}

#[test]
fn the_first_of_equal_stamps_and_no_end_where_some_differ() {
    let other = Entry::new(1, 1, 9);
    let tie = [of(1, 1, OLD), of(2, 1, other), of(3, 1, other)];
    assert_eq!(last(1, 0, four(), &tie), closed(OLD, false));
    let first_again = [of(1, 1, OLD), of(1, 1, NEW), of(2, 1, NEW), of(3, 1, NEW)];
    assert_eq!(last(1, 0, four(), &first_again), closed(NEW, false));
    // An entry with the stamp of the empty one is shown first.
    let unstamped = Entry::new(0, 0, 5);
    let empty = [
        of(1, 1, unstamped),
        of(2, 1, Entry::EMPTY),
        of(3, 1, Entry::EMPTY),
    ];
    assert_eq!(last(1, 0, four(), &empty), closed(unstamped, false));
}

#[test]
fn two_sizes() {
    let answers: Vec<Message> = (1..=9).map(|server| of(server, 1, OLD)).collect();
    // A read size below the write size: the read writes back.
    assert_eq!(last(1, 0, ten(), &answers[..3]), closed(OLD, false));
    assert_eq!(last(2, 0, ten(), &answers[..8]), Verdict::Open);
    assert_eq!(last(2, 0, ten(), &answers), closed(OLD, false));
    assert_eq!(last(3, 1, ten(), &answers), closed(OLD, false));
}

#[test]
fn end_is_closed_by_its_own_view() {
    let others: Vec<Message> = (1..=4).map(|server| of(server, 2, NEW)).collect();
    assert_eq!(last(3, 1, four(), &others), Verdict::Open);
    let own = [of(1, 1, OLD), of(2, 1, OLD), of(3, 1, OLD)];
    assert_eq!(
        last(3, 1, four(), &[&others[..], &own].concat()),
        closed(OLD, false)
    );
}

/// A record of READ, an answer and what they come to, the record as it was.
fn refusal(change: fn(&mut [u8], &mut Message, &mut View)) -> Reason {
    let mut record = [0; PHASE_SIZE];
    open(&mut record, message_kind::READ, 0, REQUEST).unwrap();
    let (mut message, mut view) = (of(1, 1, OLD), four());
    change(&mut record, &mut message, &mut view);
    let given = [&message.bytes()[..], &view.bytes()].concat();
    let (before, mut entry) = (record, [0xff; ENTRY_SIZE]);
    let reason = answer(&mut record, &given, &mut entry).unwrap_err();
    assert!(record == before && entry == [0xff; ENTRY_SIZE]);
    reason
}

#[test]
fn each_refusal() {
    let flag = HEAD_SIZE + 16;
    assert_eq!(flag + 4, HEAD_SIZE + TALLY_SIZE);
    assert_eq!(refusal(|record, _, _| record[1] = 1), Reason::RecordRange);
    assert_eq!(refusal(|record, _, _| record[0] = 0), Reason::RecordRange);
    assert_eq!(
        refusal(|record, _, _| record[HEAD_SIZE + 16] = 1),
        Reason::RecordRange
    );
    assert_eq!(
        refusal(|_, message, _| message.sender = 33),
        Reason::CallRange
    );
    assert_eq!(refusal(|_, _, view| view.spare[1] = 1), Reason::CallRange);
    let start = |_: &mut [u8], message: &mut Message, _: &mut View| {
        *message = Message {
            kind: message_kind::START,
            view: 1,
            ..Message::default()
        };
    };
    assert_eq!(refusal(start), Reason::NotAnAnswer);
    assert_eq!(
        refusal(|_, message, _| message.taken = 1),
        Reason::TakenBefore
    );
    assert_eq!(
        refusal(|_, message, _| message.request = 8),
        Reason::NobodyWaits
    );
    assert_eq!(refusal(|record, _, _| record.fill(0)), Reason::NobodyWaits);
    assert_eq!(refusal(|_, _, view| view.f = 2), Reason::SizeRule);
    assert_eq!(refusal(|_, _, view| view.r = 2), Reason::ReadSize);
}

#[test]
fn openings() {
    for (kind, view, request) in [
        (0, 0, 0),
        (4, 0, 9),
        (1, 1, 9),
        (3, 0, 9),
        (3, 33, 9),
        (2, 0, 0),
        (1, 0, 1024),
    ] {
        let mut record = [0xff; PHASE_SIZE];
        assert_eq!(
            open(&mut record, kind, view, request),
            Err(Reason::CallRange)
        );
        assert_eq!(record, [0xff; PHASE_SIZE]);
    }
    assert_eq!(
        open(&mut [0; PHASE_SIZE + 1], 1, 0, 9),
        Err(Reason::RecordLength)
    );
}
