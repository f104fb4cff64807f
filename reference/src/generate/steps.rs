//! Steps aimed at a given world: each kind with fields that mean something in
//! it, and steps that only look like some.

use crate::generate::journals::any_read_size;
use crate::layout::{LAST_CLIENT, LAST_MESSAGE, LAST_SERVER, LAST_VIEW, STEP_SIZE};
use crate::record::{step_kind, Step};
use crate::world::{bit, message_kind, phase, Client, World};
use crate::xorshift::Draws;

/// A step drawn with no care: fields that mean something in this world, or a
/// field spoiled, or any bytes, or a wrong length.
pub fn odd_step(world: &World, draws: &mut Draws) -> Vec<u8> {
    match draws.below(10) {
        0 => {
            let length = draws.below(2 * STEP_SIZE + 1);
            let mut bytes = aimed_step(world, draws).bytes().to_vec();
            bytes.resize(length, 0);
            bytes
        }
        1 => (0..STEP_SIZE).map(|_| draws.word() as u8).collect(),
        2 | 3 => spoiled_step(world, draws),
        _ => aimed_step(world, draws).bytes().to_vec(),
    }
}

/// A step with one byte changed.
pub fn spoiled_step(world: &World, draws: &mut Draws) -> Vec<u8> {
    let mut bytes = aimed_step(world, draws).bytes().to_vec();
    let place = draws.below(STEP_SIZE);
    bytes[place] = match draws.below(3) {
        0 => bytes[place].wrapping_add(1),
        1 => bytes[place] ^ 1 << draws.below(8),
        _ => draws.word() as u8,
    };
    bytes
}

/// A step that passes check 3, of each kind as often as another.
pub fn aimed_step(world: &World, draws: &mut Draws) -> Step {
    let kind = draws.between(1, usize::from(step_kind::LAST)) as u8;
    aimed_step_of(kind, world, draws)
}

/// A step of this kind that passes check 3, with fields aimed at the world.
pub fn aimed_step_of(kind: u8, world: &World, draws: &mut Draws) -> Step {
    match kind {
        step_kind::WRITE => Step::write(any_client(draws), any_value(draws)),
        step_kind::READ => Step::read(any_client(draws)),
        step_kind::DELIVER => {
            let message = a_message(world, draws, 90, |kind| kind != message_kind::ANSWER);
            Step::deliver(receiver(world, draws, message), message)
        }
        step_kind::TAKE => Step::take(answer(world, draws)),
        step_kind::FAULT => Step::fault(any_server(draws)),
        step_kind::FALSE_ANSWER => false_answer(world, draws),
        step_kind::GIVE_UP => Step::give_up(any_client(draws)),
        step_kind::RESTART => restart(draws),
        _ => new_view(draws),
    }
}

/// A START to one of its members, if the world has any START.
pub fn aimed_start(world: &World, draws: &mut Draws) -> Option<Step> {
    let starts: Vec<u16> = (1..=world.header.used)
        .filter(|number| world.messages[usize::from(*number)].kind == message_kind::START)
        .collect();
    let start = *draws.pick(&starts)?;
    Some(Step::deliver(receiver(world, draws, start), start))
}

fn any_client(draws: &mut Draws) -> u8 {
    draws.between(1, usize::from(LAST_CLIENT)) as u8
}

fn any_server(draws: &mut Draws) -> u8 {
    // The low numbers are the ones that take part.
    let last = if draws.chance(60) { 6 } else { LAST_SERVER };
    draws.between(1, usize::from(last)) as u8
}

fn any_value(draws: &mut Draws) -> u32 {
    match draws.below(4) {
        0 => 0,
        1 => u32::MAX,
        2 => draws.below(10) as u32,
        _ => draws.word() as u32,
    }
}

/// A message number, with these chances of a used one whose kind is wanted.
fn a_message(world: &World, draws: &mut Draws, percent: usize, wanted: impl Fn(u8) -> bool) -> u16 {
    let used = usize::from(world.header.used);
    if used > 0 && draws.chance(percent) {
        for _ in 0..16 {
            let number = draws.between(1, used);
            if wanted(world.messages[number].kind) {
                return number as u16;
            }
        }
    }
    match draws.below(3) {
        0 => draws.between(1, usize::from(LAST_MESSAGE)) as u16,
        1 => (used + 1).min(usize::from(LAST_MESSAGE)) as u16,
        _ => draws.between(1, used.max(1)) as u16,
    }
}

/// A server for the message: one of the START's members or one that serves, for
/// preference.
fn receiver(world: &World, draws: &mut Draws, message: u16) -> u8 {
    if draws.chance(20) {
        return any_server(draws);
    }
    let started = world
        .message(message)
        .filter(|message| message.kind == message_kind::START)
        .map(|message| world.view(message.view).members);
    let bits = started.unwrap_or_else(|| {
        (1..=LAST_SERVER)
            .filter(|number| {
                let server = world.server(*number);
                server.serves() && !server.is_faulty()
            })
            .fold(0, |bits, number| bits | bit(number))
    });
    match draws.pick_bit(bits) {
        0 => any_server(draws),
        server => server,
    }
}

/// Whether somebody waits for answers to the request.
fn is_open(world: &World, request: u16) -> bool {
    let waits = |client: &Client| client.phase != phase::IDLE && client.request == request;
    world.clients.iter().any(waits) || (world.is_ending() && world.header.end == request)
}

/// An answer that can be taken, for preference.
fn answer(world: &World, draws: &mut Draws) -> u16 {
    if draws.chance(75) {
        let used = usize::from(world.header.used);
        let open: Vec<u16> = (1..=used as u16)
            .filter(|number| {
                let message = &world.messages[usize::from(*number)];
                message.kind == message_kind::ANSWER
                    && message.taken == 0
                    && is_open(world, message.request)
            })
            .collect();
        if let Some(number) = draws.pick(&open) {
            return *number;
        }
    }
    a_message(world, draws, 85, |kind| kind == message_kind::ANSWER)
}

fn false_answer(world: &World, draws: &mut Draws) -> Step {
    let faulty = (1..=LAST_SERVER)
        .filter(|number| world.server(*number).is_faulty())
        .fold(0, |bits, number| bits | bit(number));
    let server = match draws.pick_bit(faulty) {
        0 => any_server(draws),
        _ if draws.chance(10) => any_server(draws),
        server => server,
    };
    let view = match draws.pick_bit(world.server(server).keys) {
        0 => draws.between(1, usize::from(LAST_VIEW)) as u8,
        _ if draws.chance(15) => draws.between(1, usize::from(LAST_VIEW)) as u8,
        view => view,
    };
    let asks = |kind| kind <= message_kind::END;
    let message = a_message(world, draws, 90, asks);
    let source = if draws.chance(40) {
        0
    } else {
        a_message(world, draws, 85, |kind| kind == message_kind::WRITE)
    };
    Step::false_answer(server, view, message, source)
}

/// A restart, half of the times without members.
fn restart(draws: &mut Draws) -> Step {
    if draws.chance(50) {
        return Step::restart(0, 0, 0);
    }
    let view = new_view(draws);
    if view.value == 0 {
        return Step::restart(0, 0, 0);
    }
    Step::restart(view.value, view.f, view.who)
}

fn new_view(draws: &mut Draws) -> Step {
    let n = draws.between(0, 32);
    let members = draws.bits(n, 32);
    let f = match draws.below(5) {
        0 => draws.below(256),
        1 => n.div_ceil(3),
        _ => n.saturating_sub(1) / 3,
    };
    let r = any_read_size(draws, n, f);
    Step::sized_view(members, f as u8, r)
}
