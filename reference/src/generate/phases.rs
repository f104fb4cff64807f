//! Phases and the answers that arrive for them: of correct servers and of liars,
//! some twice, some of another view or another request, some late, some spoiled.

use crate::codec::Record;
use crate::entry::Entry;
use crate::generate::journals::any_read_size;
use crate::layout::{LAST_MESSAGE, LAST_VIEW};
use crate::phase::{Phase, HEAD_SIZE, PHASE_SIZE, TALLY_SIZE};
use crate::world::{message_kind, Message, View};
use crate::xorshift::Draws;

/// A phase that is open, the views that answers may be tagged with, and the
/// entries that servers show.
pub struct Opened {
    pub phase: Phase,
    pub views: Vec<(u8, View)>,
    pub entries: Vec<Entry>,
}

/// A phase of READ, WRITE or END with up to three views.
pub fn opened(draws: &mut Draws) -> Opened {
    let numbers = [1, draws.between(2, 31) as u8, LAST_VIEW];
    let views: Vec<(u8, View)> = numbers[..draws.between(1, 3)]
        .iter()
        .map(|number| (*number, a_view(draws)))
        .collect();
    let kind = draws.between(1, 3) as u8;
    // The last view never ends.
    let own = if kind == message_kind::END {
        views[draws.below(views.len().min(2))].0
    } else {
        0
    };
    let request = draws.between(1, usize::from(LAST_MESSAGE)) as u16;
    let phase = Phase::open(kind, own, request).expect("these are in range");
    let stamps = draws.between(1, 3);
    let entries = (0..draws.between(1, 4))
        .map(|_| {
            Entry::new(
                draws.below(stamps) as u32,
                draws.below(2) as u8,
                draws.below(3) as u32,
            )
        })
        .collect();
    Opened {
        phase,
        views,
        entries,
    }
}

fn a_view(draws: &mut Draws) -> View {
    let n = *draws.pick(&[1, 2, 3, 4, 4, 5, 7, 10, 32]).expect("sizes");
    let f = draws.below((n - 1) / 3 + 1);
    let fits = |r: u8| View {
        members: 0,
        f: f as u8,
        r,
        ..View::default()
    };
    let members = draws.bits(n, 32);
    let r = any_read_size(draws, n, f);
    let view = View { members, ..fits(r) };
    if view.size_rule().is_ok() {
        view
    } else {
        View { members, ..fits(0) }
    }
}

/// An answer that arrives: most are of a member, with its own view's tag.
pub fn arriving(opened: &Opened, request: u16, draws: &mut Draws) -> (Message, View) {
    let (number, view) = opened.views[draws.below(opened.views.len())];
    let sender = match draws.below(10) {
        0 => draws.between(1, 32) as u8,
        _ => draws.pick_bit(view.members),
    };
    let most = draws.chance(60);
    let entry = if most {
        opened.entries[0]
    } else {
        opened.entries[draws.below(opened.entries.len())]
    };
    let message = Message {
        kind: message_kind::ANSWER,
        sender,
        view: number,
        request,
        entry,
        ..Message::default()
    };
    (message, view)
}

/// The bytes of an answer with its view, now and then not as they should be.
pub fn given(message: Message, view: View, draws: &mut Draws) -> Vec<u8> {
    let (mut message, mut view) = (message, view);
    match draws.below(60) {
        0 => message.taken = 1,
        1 => message.request = draws.between(1, usize::from(LAST_MESSAGE)) as u16,
        2 => message.sender = *draws.pick(&[0, 33, 255]).expect("numbers"),
        3 => message.view = *draws.pick(&[0, 33, 255]).expect("numbers"),
        4 => message.entry.writer = 17,
        5 => message.next = draws.below(2000) as u16,
        6 => view.f = draws.word() as u8,
        7 => view.r = draws.word() as u8,
        8 => view.members = draws.word() as u32 & draws.word() as u32,
        9 => view.spare[draws.below(2)] = 1,
        10 => {
            let kind = draws.between(1, 4) as u8;
            let named = kind >= message_kind::END;
            message = Message {
                kind,
                sender: if named { 0 } else { 1 },
                view: if named { message.view } else { 0 },
                ..Message::default()
            };
        }
        _ => {}
    }
    let mut bytes = [&message.bytes()[..], &view.bytes()].concat();
    match draws.below(80) {
        0 => bytes.truncate(draws.below(bytes.len() + 1)),
        1 => bytes.push(0),
        2 | 3 => {
            let place = draws.below(bytes.len());
            bytes[place] = draws.word() as u8;
        }
        _ => {}
    }
    bytes
}

/// The record with something that no list of answers makes, most often.
pub fn spoiled(record: &[u8], view: u8, draws: &mut Draws) -> Vec<u8> {
    let mut bytes = record.to_vec();
    let tally = HEAD_SIZE + TALLY_SIZE * (usize::from(view) - 1);
    match draws.below(10) {
        0 => bytes[0] = draws.word() as u8,
        1 => bytes[1] = draws.word() as u8,
        2 => bytes[3] = draws.word() as u8,
        3 => bytes[tally + 16] = draws.between(2, 255) as u8,
        4 => bytes[tally + 17 + draws.below(3)] = 1,
        5 => bytes[tally + 8] = 17,
        6 => bytes[tally + 9 + draws.below(3)] = 1,
        7 => bytes[tally..tally + 4].fill(0),
        8 => {
            let place = tally + draws.below(TALLY_SIZE);
            bytes[place] ^= 1 << draws.below(8);
        }
        _ => {
            let length = *draws
                .pick(&[0, PHASE_SIZE - 1, PHASE_SIZE + 1])
                .expect("lengths");
            bytes.resize(length, 0);
        }
    }
    bytes
}
