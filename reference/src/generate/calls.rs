//! Calls of single machines: a record of some world, and what is asked of it.

use crate::codec::Record;
use crate::entry::Entry;
use crate::generate::journals::any_read_size;
use crate::layout::{
    ADMINISTRATOR_AT, ADMINISTRATOR_SIZE, LAST_CLIENT, LAST_MESSAGE, LAST_SERVER, LAST_VIEW,
};
use crate::record::step_kind;
use crate::world::{message_kind, operation_kind, phase, Client, Message, View, World};
use crate::xorshift::Draws;

/// A record and what is asked of it.
pub type Call = (Vec<u8>, Vec<u8>);

fn call<const N: usize, const M: usize>(
    record: impl Record<N>,
    head: [u8; 4],
    part: impl Record<M>,
) -> Call {
    (record.bytes().to_vec(), [&head[..], &part.bytes()].concat())
}

/// A message of this world reaches a server, or a server answers it falsely.
pub fn server_call(world: &World, draws: &mut Draws) -> Call {
    let server = *world.server(draws.between(1, usize::from(LAST_SERVER)) as u8);
    let flag = u8::from(draws.chance(75));
    let message = a_message(world, draws);
    if draws.chance(60) {
        return call(server, [step_kind::DELIVER, flag, 0, 0], message);
    }
    let view = match draws.pick_bit(server.keys) {
        0 => draws.between(1, usize::from(LAST_VIEW)) as u8,
        view => view,
    };
    call(server, [step_kind::FALSE_ANSWER, flag, view, 0], message)
}

/// A message of the world, of each kind as often as another where it has one.
fn a_message(world: &World, draws: &mut Draws) -> Message {
    let kind = draws.between(1, usize::from(message_kind::ANSWER)) as u8;
    let of_kind: Vec<&Message> = world.messages.iter().filter(|m| m.kind == kind).collect();
    match draws.pick(&of_kind) {
        Some(message) => **message,
        None => world.messages[draws.below(usize::from(world.header.used) + 1)],
    }
}

fn a_number(draws: &mut Draws) -> u16 {
    match draws.below(8) {
        0 => 0,
        1 => LAST_MESSAGE + 1,
        2 => LAST_MESSAGE,
        _ => draws.between(1, usize::from(LAST_MESSAGE)) as u16,
    }
}

/// A client begins, gives up, or its phase closes with an entry of the world.
pub fn client_call(world: &World, draws: &mut Draws) -> Call {
    let number = draws.between(1, usize::from(LAST_CLIENT)) as u8;
    let mut client = *world.client(number);
    if draws.chance(40) {
        client = a_client(client, draws);
    }
    let [n0, n1] = a_number(draws).to_le_bytes();
    let value = draws.word() as u32;
    let (record, mut asked) = match draws.below(5) {
        0 => call(
            client,
            [step_kind::WRITE, 0, n0, n1],
            Entry::new(0, 0, value),
        ),
        1 => call(client, [step_kind::READ, 0, n0, n1], Entry::EMPTY),
        2 => call(client, [step_kind::GIVE_UP, 0, 0, 0], Entry::EMPTY),
        _ => {
            let entry = a_message(world, draws).entry;
            call(client, [step_kind::TAKE, number, n0, n1], entry)
        }
    };
    let flag = asked[0] == step_kind::TAKE && draws.chance(50);
    asked.push(u8::from(flag));
    (record, asked)
}

/// An open phase whose request need not be a message of any world.
fn a_client(idle: Client, draws: &mut Draws) -> Client {
    let kind = draws.between(1, 2) as u8;
    let writing = draws.chance(40);
    let value = if kind == operation_kind::WRITE {
        draws.word() as u32
    } else {
        0
    };
    Client {
        phase: if writing {
            phase::WRITING
        } else {
            phase::READING
        },
        kind,
        request: draws.between(1, usize::from(LAST_MESSAGE)) as u16,
        entry: if writing {
            idle.entry
        } else {
            Entry::new(0, 0, value)
        },
        largest: idle.largest,
    }
}

/// The administrator calls a view, it restarts, or its END closes.
pub fn administrator_call(world: &World, draws: &mut Draws) -> Call {
    let end = ADMINISTRATOR_AT + ADMINISTRATOR_SIZE;
    let record = world.header.bytes()[ADMINISTRATOR_AT..end].to_vec();
    let [n0, n1] = a_number(draws).to_le_bytes();
    let asked = if draws.chance(60) {
        let n = draws.between(0, 32);
        let f = match draws.below(4) {
            0 => draws.below(256),
            1 => n.div_ceil(3),
            _ => n.saturating_sub(1) / 3,
        };
        let view = View {
            members: draws.bits(n, 32),
            f: f as u8,
            r: any_read_size(draws, n, f),
            ..View::default()
        };
        match draws.below(5) {
            0 => [&[step_kind::RESTART, 0, 0, 0][..], &view.bytes()].concat(),
            1 => {
                // Without members, and seldom with a threshold or a size.
                let [f, r] = [0; 2].map(|_| draws.chance(20));
                let bare = View {
                    f: u8::from(f),
                    r: u8::from(r),
                    ..View::default()
                };
                [&[step_kind::RESTART, 0, 0, 0][..], &bare.bytes()].concat()
            }
            _ => [&[step_kind::NEW_VIEW, 0, n0, n1][..], &view.bytes()].concat(),
        }
    } else {
        [&[step_kind::TAKE, 0, 0, 0][..], &View::default().bytes()].concat()
    };
    (record, asked)
}

/// Leaves most calls as they are; changes a byte or a length of some.
pub fn spoil_call((mut record, mut asked): Call, draws: &mut Draws) -> Call {
    let side = if draws.chance(50) {
        &mut record
    } else {
        &mut asked
    };
    match draws.below(12) {
        0 => {
            let length = draws.below(2 * side.len());
            side.resize(length, 0);
        }
        1..=4 => {
            let place = draws.below(side.len());
            side[place] = match draws.below(3) {
                0 => side[place].wrapping_add(1),
                1 => side[place] ^ 1 << draws.below(8),
                _ => draws.word() as u8,
            };
        }
        _ => {}
    }
    (record, asked)
}
