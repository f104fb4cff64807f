//! Images spoiled on purpose: for each clause of the readable rule some that
//! only that clause refuses, and images with one byte changed.

use crate::codec::Image;
use crate::entry::Entry;
use crate::generate::specimen::{at, specimen};
use crate::layout::{
    CLIENTS_AT, IMAGE_SIZE, LAST_VIEW, MESSAGES_AT, MESSAGE_SIZE, SERVERS_AT, VERSION, VIEWS_AT,
};
use crate::readable::Clause;
use crate::world::{bit, message_kind, operation_kind, phase, Client, Message, View, World};
use crate::xorshift::Draws;

/// Worlds with one thing spoiled, which only this clause forbids.
pub fn spoiled(clause: Clause) -> Vec<World> {
    header(clause)
        .into_iter()
        .chain(views(clause))
        .chain(servers(clause))
        .chain(clients(clause))
        .chain(messages(clause))
        .chain(links(clause))
        .collect()
}

/// The specimen, once for each of the values, with that value put somewhere.
fn each<T: Copy>(values: &[T], put: impl Fn(&mut World, T)) -> Vec<World> {
    values
        .iter()
        .map(|value| {
            let mut world = specimen();
            put(&mut world, *value);
            world
        })
        .collect()
}

fn header(clause: Clause) -> Vec<World> {
    match clause {
        Clause::Version => each(&[0, 1, 2, 4, 259], |world, number| {
            world.header.version = number
        }),
        Clause::Used => each(&[1024, u16::MAX], use_every_number),
        Clause::Newest => {
            let mut worlds = each(&[33, 64, 255], newest_beyond);
            worlds.push(no_view_at_all());
            worlds
        }
        Clause::Ending => each(&[2, 128, 255], |world, number| {
            world.header.ending = number;
            world.views[2] = View::default();
        }),
        Clause::HeaderSpare => each(&[0, 1, 2, 3, 4, 5, 6, 7], |world, place: usize| {
            world.header.spare[place] = 1;
        }),
        Clause::EndUnlessEnding => each(&[1, 11, u16::MAX], |world, number| {
            stop_ending(world);
            world.header.end = number;
        }),
        Clause::EndingBelowLast => each(&[()], |world, ()| end_last_view(world)),
        Clause::EndNamed => each(
            &[0, 1, 4, 5, 9, 12, 13, 1023, 1024, u16::MAX],
            |world, number| {
                world.header.end = number;
            },
        ),
        Clause::EndOfNewest => each(&[at::END as u16], |world, number| world.header.end = number),
        _ => Vec::new(),
    }
}

/// All numbers used, and the header says more.
fn use_every_number(world: &mut World, said: u16) {
    for message in &mut world.messages[at::BEYOND..] {
        *message = Message {
            kind: message_kind::READ,
            sender: 1,
            ..Message::default()
        };
    }
    world.header.used = said;
}

/// A newest view beyond the last, with 32 sound ones and nothing ending.
fn newest_beyond(world: &mut World, newest: u8) {
    stop_ending(world);
    world.views = [world.views[0]; 32];
    world.header.newest = newest;
}

/// Nothing but the version.
fn no_view_at_all() -> World {
    let mut world = World::ZERO;
    world.header.version = VERSION;
    world
}

/// Nothing ends and no view is pending.
fn stop_ending(world: &mut World) {
    world.header.ending = 0;
    world.header.end = 0;
    world.views[2] = View::default();
}

/// The last view is ended, for which no other is left.
fn end_last_view(world: &mut World) {
    world.views = [world.views[0]; 32];
    world.header.newest = LAST_VIEW;
    world.messages[at::OPEN_END].view = LAST_VIEW;
}

fn views(clause: Clause) -> Vec<World> {
    match clause {
        Clause::ViewSpare => each(&[(0, 0), (1, 1), (2, 0), (3, 0), (31, 1)], |world, at| {
            let (view, place): (usize, usize) = at;
            world.views[view].spare[place] = 1;
        }),
        Clause::ViewSize => each(
            &[
                (0, 0, 0),
                (0, 0b111, 1),
                (1, 0b111, 1),
                (1, u32::MAX, 11),
                (1, u32::MAX, 255),
                (2, 0, 0),
                (2, 0b11111, 2),
            ],
            |world, (view, members, f): (usize, u32, u8)| {
                world.views[view].members = members;
                world.views[view].f = f;
            },
        ),
        // One too few, one too many, the pending view, beyond it, the last.
        Clause::Holders => each(
            &[(0, 0), (0, 2), (1, 0), (1, 255), (2, 1), (3, 1), (31, 1)],
            |world, (view, count): (usize, u8)| world.holders[view] = count,
        ),
        // The views have (3, 0), (4, 1) and (5, 1): 1 to 2, 3, and 3 alone.
        Clause::ViewReadSize => each(
            &[(0, 3), (0, 255), (1, 2), (1, 4), (2, 2), (2, 4), (2, 128)],
            |world, (view, r): (usize, u8)| world.views[view].r = r,
        ),
        Clause::ViewBeyond => each(
            &[
                (3, 1, 0, 0),
                (3, 0, 1, 0),
                (3, 0, 0, 1),
                (31, 1 << 31, 0, 0),
                (31, 0, 255, 0),
                (31, 0, 0, 255),
            ],
            |world, (view, members, f, r): (usize, u32, u8, u8)| {
                world.views[view].members = members;
                world.views[view].f = f;
                world.views[view].r = r;
            },
        ),
        _ => Vec::new(),
    }
}

fn servers(clause: Clause) -> Vec<World> {
    match clause {
        Clause::ServerView => each(&[3, 32, 33, 255], |world, view| {
            world.server_mut(2).view = view;
        }),
        Clause::ServerFaulty => each(&[2, 128, 255], |world, number| {
            world.server_mut(3).faulty = number;
        }),
        Clause::ServerSpare => each(&[0, 1], |world, place: usize| {
            world.server_mut(32).spare[place] = 1;
        }),
        Clause::ServerKeys => each(&[3, 4, 32], |world, view| {
            world.server_mut(3).keys |= bit(view);
        }),
        // A second key, the key of another view, a key without a view.
        Clause::CorrectKeys => each(
            &[(1, 0b11), (2, 0b10), (9, 0b1)],
            |world, (number, keys)| {
                world.server_mut(number).keys = keys;
            },
        ),
        Clause::ServerWriter => each(&[17, 32, 255], |world, writer| {
            world.server_mut(1).entry.writer = writer;
        }),
        Clause::ServerEntrySpare => each(&[0, 1, 2], |world, place: usize| {
            world.server_mut(1).entry.spare[place] = 1;
        }),
        _ => Vec::new(),
    }
}

fn clients(clause: Clause) -> Vec<World> {
    match clause {
        Clause::ClientPhase => each(&[3, 255], |world, phase| world.client_mut(2).phase = phase),
        Clause::ClientKind => each(&[3, 255], |world, kind| world.client_mut(2).kind = kind),
        Clause::IdleRequest => each(&[(3, 1), (4, 1), (4, 256)], |world, (client, number)| {
            world.client_mut(client).request = number;
        }),
        Clause::KindlessPhase => {
            let mut worlds = each(&[()], |world, ()| world.client_mut(2).kind = 0);
            worlds.extend(each(&[()], |world, ()| write_without_kind(world)));
            worlds
        }
        Clause::KindlessEntry => each(&parts_of_an_entry(), |world, entry| {
            world.client_mut(3).entry = entry;
        }),
        // The value is free there.
        Clause::WriteReading => each(&parts_of_an_entry()[..2], |world, entry| {
            world.client_mut(2).kind = operation_kind::WRITE;
            world.client_mut(2).entry = entry;
        }),
        Clause::ReadReading => each(&parts_of_an_entry(), |world, entry| {
            world.client_mut(2).entry = entry;
        }),
        Clause::ReadingNamed => each(&[0, 1, 4, 5, 11, 13, 1024, u16::MAX], |world, number| {
            world.client_mut(2).request = number;
        }),
        Clause::WritingNamed => each(&[0, 1, 9, 12, 13, 1024, u16::MAX], |world, number| {
            world.client_mut(1).request = number;
        }),
        Clause::WritingEntry => each(&[(2, 1, 70), (1, 2, 70), (1, 1, 71)], |world, entry| {
            let (count, writer, value) = entry;
            world.client_mut(1).entry = Entry::new(count, writer, value);
        }),
        Clause::ClientWriter => each(&[17, 255], |world, writer| {
            world.client_mut(4).entry.writer = writer;
        }),
        Clause::ClientEntrySpare => each(&[0, 1, 2], |world, place: usize| {
            world.client_mut(4).entry.spare[place] = 1;
        }),
        _ => Vec::new(),
    }
}

/// Entries with one field set.
fn parts_of_an_entry() -> [Entry; 3] {
    [
        Entry::new(1, 0, 0),
        Entry::new(0, 1, 0),
        Entry::new(0, 0, 1),
    ]
}

/// An open WRITE phase of no kind, with the empty entry as it should be.
fn write_without_kind(world: &mut World) {
    world.messages[at::OLD_WRITE].entry = Entry::EMPTY;
    *world.client_mut(5) = Client {
        phase: phase::WRITING,
        kind: operation_kind::NONE,
        request: at::OLD_WRITE as u16,
        ..Client::default()
    };
}

/// The requests and the START that nothing else in the specimen names.
const FREE: [usize; 4] = [at::READ, at::OLD_WRITE, at::END, at::START];

fn messages(clause: Clause) -> Vec<World> {
    match clause {
        Clause::MessageZero => each(&whole_messages(), |world, message| {
            world.messages[0] = message
        }),
        Clause::MessageBeyond => each(&[at::BEYOND, 500, 1023], |world, number| {
            world.messages[number] = whole_messages()[number % 3];
        }),
        Clause::MessageKind => each(&[0, 6, 255], |world, kind| {
            world.messages[at::UNTAKEN] = Message {
                kind,
                ..Message::default()
            };
        }),
        Clause::MessageSender => each(
            &[
                (at::UNTAKEN, 0),
                (at::UNTAKEN, 33),
                (at::UNTAKEN, 255),
                (at::READ, 0),
                (at::READ, 17),
                (at::OLD_WRITE, 0),
                (at::OLD_WRITE, 17),
                (at::END, 1),
                (at::START, 1),
            ],
            |world, (number, sender)| world.messages[number].sender = sender,
        ),
        Clause::NoMessageView => each(&[at::READ, at::WRITE, at::OPEN_READ], |world, number| {
            world.messages[number].view = 1;
        }),
        Clause::MessageView => each(&[0, 3, 33, 255], |world, view| {
            world.messages[at::UNTAKEN].view = view;
        })
        .into_iter()
        .chain(each(&[0, 3], |world, view| {
            world.messages[at::START].view = view
        }))
        .chain(each(&[0, 3], |world, view| {
            world.messages[at::END].view = view
        }))
        .collect(),
        Clause::AnswerTaken => each(&[2, 128, 255], |world, taken| {
            world.messages[at::UNTAKEN].taken = taken;
        }),
        Clause::OtherTaken => each(&FREE, |world, number| world.messages[number].taken = 1),
        Clause::AnswerRequest => each(&[0, 4, 7, 9, 13, 1024, u16::MAX], |world, number| {
            world.messages[at::UNTAKEN].request = number;
        }),
        Clause::OtherRequest => each(&FREE, |world, number| world.messages[number].request = 1),
        Clause::NoMessageEntry => each(&parts_of_an_entry(), |world, entry| {
            world.messages[at::READ].entry = entry;
        })
        .into_iter()
        .chain(each(&parts_of_an_entry(), |world, entry| {
            world.messages[at::END].entry = entry;
        }))
        .collect(),
        Clause::MessageWriter => each(
            &[
                (at::OLD_WRITE, 17),
                (at::START, 17),
                (at::UNTAKEN, 17),
                (at::UNTAKEN, 255),
            ],
            |world, (number, writer)| world.messages[number].entry.writer = writer,
        ),
        Clause::MessageEntrySpare => each(
            &[at::READ, at::OLD_WRITE, at::END, at::START, at::UNTAKEN],
            |world, number| world.messages[number].entry.spare[number % 3] = 1,
        ),
        _ => Vec::new(),
    }
}

/// A READ, an answer that only has a link, and one that only has a value.
fn whole_messages() -> [Message; 3] {
    let none = Message::default();
    [
        Message {
            kind: message_kind::READ,
            sender: 1,
            ..none
        },
        Message { next: 2, ..none },
        Message {
            entry: Entry::new(0, 0, 1),
            ..none
        },
    ]
}

fn links(clause: Clause) -> Vec<World> {
    let next = |from: usize, numbers: &[u16]| {
        each(numbers, |world, number| world.messages[from].next = number)
    };
    match clause {
        Clause::StartNext => next(at::START, &[1, 4, 1024]),
        Clause::UntakenNext => next(at::UNTAKEN, &[1, 2, 4, 1024]),
        Clause::ChainOnly => {
            // The oldest link leads to a request, an answer that is not taken,
            // one of another request, or beyond; or it is not taken itself.
            let mut worlds = next(at::FIRST_TAKEN, &[1, 4, 5, 7, 9, 13, 1024, u16::MAX]);
            worlds.extend(next(at::OLD_WRITE, &[2, 4, 12]));
            worlds.extend(each(&[()], |world, ()| {
                world.messages[at::FIRST_TAKEN].taken = 0
            }));
            worlds
        }
        // The oldest link leads back to the newest, or to itself.
        Clause::ChainOnce => next(at::FIRST_TAKEN, &[3, 2]),
        // The chain ends too early, or does not begin.
        Clause::ChainAll => {
            let mut worlds = next(at::SECOND_TAKEN, &[0]);
            worlds.extend(next(at::READ, &[0, 2]));
            worlds.extend(next(at::END, &[0, at::END_TAKEN as u16]));
            worlds
        }
        _ => Vec::new(),
    }
}

/// Numbers at the edge of some field's range.
const EDGES: [u8; 13] = [0, 1, 2, 3, 4, 5, 6, 16, 17, 31, 32, 33, 255];

/// Changes one byte of the image (or, rarely, leaves it as it was), in its used
/// parts for preference, and returns its place.
pub fn change_byte(image: &mut Image, used: u16, draws: &mut Draws) -> usize {
    let beyond = MESSAGES_AT + (usize::from(used) + 1) * MESSAGE_SIZE;
    let place = match draws.below(8) {
        0 => draws.below(IMAGE_SIZE),
        1 | 2 => draws.below(VIEWS_AT),
        3 => draws.between(VIEWS_AT, SERVERS_AT - 1),
        4 => draws.between(SERVERS_AT, CLIENTS_AT - 1),
        5 => draws.between(CLIENTS_AT, MESSAGES_AT - 1),
        _ => draws.between(MESSAGES_AT, beyond - 1),
    };
    let before = image[place];
    image[place] = match draws.below(6) {
        0 => before.wrapping_add(1),
        1 => before.wrapping_sub(1),
        2 => before ^ (1 << draws.below(8)),
        3 => before ^ draws.between(1, 255) as u8,
        _ => *draws.pick(&EDGES).expect("there are edges"),
    };
    place
}
