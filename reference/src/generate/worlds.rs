//! Readable worlds that no run reaches: every field drawn within its clause,
//! with nothing else that a run would ensure. Answers come from servers that
//! are members of nothing, chains run in any order, views have several STARTs
//! or none, count 0 goes with a value, idle clients remember anything, faulty
//! servers hold many keys.

use crate::entry::Entry;
use crate::generate::journals::permitted_read_size;
use crate::layout::{CLIENTS, LAST_CLIENT, LAST_MESSAGE, LAST_SERVER, LAST_VIEW, SERVERS, VERSION};
use crate::premise::faulty_holders;
use crate::world::{
    bit, message_kind, operation_kind, phase, Client, Message, Server, View, World,
};
use crate::xorshift::Draws;

/// A readable world of this seed.
pub fn world(draws: &mut Draws) -> World {
    let mut world = World::ZERO;
    let entries = draw_entries(draws);
    draw_header(&mut world, draws);
    draw_views(&mut world, draws);
    draw_requests(&mut world, draws, &entries);
    draw_answers(&mut world, draws, &entries);
    draw_chains(&mut world, draws);
    for number in 0..SERVERS {
        world.servers[number] = draw_server(&world, draws, &entries);
    }
    for number in 1..=CLIENTS as u8 {
        *world.client_mut(number) = Client {
            largest: draw_count(draws),
            ..draw_client(&world, draws, &entries, number)
        };
    }
    world.holders = faulty_holders(&world);
    world
}

/// Any count, at the ends for preference.
fn draw_count(draws: &mut Draws) -> u32 {
    match draws.below(5) {
        0 => 0,
        1 => u32::MAX,
        2 => u32::MAX - 1,
        3 => draws.word() as u32,
        _ => draws.between(1, 3) as u32,
    }
}

/// A few entries to share, so that stamps are often equal: some with equal
/// stamps and other values, some at the end of the counts.
fn draw_entries(draws: &mut Draws) -> Vec<Entry> {
    let writer = |draws: &mut Draws| draws.between(0, usize::from(LAST_CLIENT)) as u8;
    if draws.chance(15) {
        // Two that differ in the value alone.
        let count = draw_count(draws);
        return vec![Entry::new(count, 1, 1), Entry::new(count, 1, 2)];
    }
    let mut entries = vec![Entry::EMPTY];
    for _ in 0..draws.between(1, 5) {
        let count = draw_count(draws);
        let entry = Entry::new(count, writer(draws), draws.word() as u32);
        entries.push(entry);
        if draws.chance(50) {
            entries.push(Entry::new(entry.count, entry.writer, draws.below(3) as u32));
        }
    }
    entries
}

fn an_entry(draws: &mut Draws, entries: &[Entry]) -> Entry {
    *draws.pick(entries).expect("there are entries")
}

fn draw_header(world: &mut World, draws: &mut Draws) {
    let last = usize::from(LAST_MESSAGE);
    world.header.version = VERSION;
    world.header.newest = match draws.below(6) {
        0 => LAST_VIEW,
        1 => draws.between(1, usize::from(LAST_VIEW)) as u8,
        2 => LAST_VIEW - 1,
        _ => draws.between(1, 3) as u8,
    };
    world.header.used = match draws.below(8) {
        0 => last,
        1 => last - 1,
        2 => draws.below(4),
        3 => draws.between(1, last),
        _ => draws.between(8, 90),
    } as u16;
    let may_end = world.header.newest < LAST_VIEW && world.header.used > 0;
    world.header.ending = u8::from(may_end && draws.chance(45));
}

fn draw_views(world: &mut World, draws: &mut Draws) {
    let recorded = usize::from(world.header.newest + world.header.ending);
    for number in 0..recorded {
        // Small views close on few answers.
        let n = match draws.below(6) {
            0 => draws.between(1, SERVERS),
            _ => draws.between(1, 5),
        };
        let pool = if draws.chance(60) { n.max(6) } else { SERVERS };
        let f = draws.between(0, (n - 1) / 3);
        world.views[number] = View {
            members: draws.bits(n, pool),
            f: f as u8,
            r: permitted_read_size(draws, n, f),
            ..View::default()
        };
    }
}

/// A view from 1 to the newest, the last ones for preference.
fn a_view(world: &World, draws: &mut Draws) -> u8 {
    let newest = usize::from(world.header.newest);
    match draws.below(3) {
        0 => draws.between(1, newest) as u8,
        1 => draws.between(newest.max(2) - 1, newest) as u8,
        _ => newest as u8,
    }
}

/// Requests in some of the numbers, and the END number if there is an ending.
/// The other numbers stay of kind 0 for the answers.
fn draw_requests(world: &mut World, draws: &mut Draws, entries: &[Entry]) {
    let used = usize::from(world.header.used);
    let percent = draws.between(5, 60);
    for number in 1..=used {
        if draws.chance(percent) {
            world.messages[number] = draw_request(world, draws, entries);
        }
    }
    if used > 0 {
        let number = draws.between(1, used);
        let ending = world.header.ending == 1;
        world.messages[number] = if ending {
            end(world.header.newest)
        } else {
            draw_request(world, draws, entries)
        };
        world.header.end = if ending { number as u16 } else { 0 };
    }
}

fn end(view: u8) -> Message {
    Message {
        kind: message_kind::END,
        view,
        ..Message::default()
    }
}

fn draw_request(world: &World, draws: &mut Draws, entries: &[Entry]) -> Message {
    let view = a_view(world, draws);
    let last = if draws.chance(70) { 4 } else { CLIENTS };
    let client = draws.between(1, last) as u8;
    match draws.below(10) {
        0 => end(view),
        1 => Message {
            kind: message_kind::START,
            view,
            entry: an_entry(draws, entries),
            ..Message::default()
        },
        2..=5 => Message {
            kind: message_kind::READ,
            sender: client,
            ..Message::default()
        },
        _ => Message {
            kind: message_kind::WRITE,
            sender: client,
            entry: an_entry(draws, entries),
            ..Message::default()
        },
    }
}

/// Answers in the numbers that are left. They go to a few of the requests, so
/// that these have many; without a request to answer, READs fill the numbers.
fn draw_answers(world: &mut World, draws: &mut Draws, entries: &[Entry]) {
    let used = usize::from(world.header.used);
    let mut requests: Vec<u16> = (1..=used)
        .filter(|number| matches!(world.messages[*number].kind, 1..=3))
        .map(|number| number as u16)
        .collect();
    draws.shuffle(&mut requests);
    if draws.chance(70) {
        let few = draws.between(1, 8);
        requests.truncate(few);
        requests.extend(Some(world.header.end).filter(|end| *end != 0));
    }
    let taken = draws.between(10, 80);
    for number in 1..=used {
        if world.messages[number].kind == 0 {
            world.messages[number] = match draws.pick(&requests) {
                Some(request) => Message {
                    kind: message_kind::ANSWER,
                    sender: a_server(draws),
                    view: a_view(world, draws),
                    taken: u8::from(draws.chance(taken)),
                    request: *request,
                    entry: an_entry(draws, entries),
                    ..Message::default()
                },
                None => Message {
                    kind: message_kind::READ,
                    sender: draws.between(1, CLIENTS) as u8,
                    ..Message::default()
                },
            };
        }
    }
}

fn a_server(draws: &mut Draws) -> u8 {
    let last = if draws.chance(75) { 5 } else { LAST_SERVER };
    draws.between(1, usize::from(last)) as u8
}

/// Links the taken answers of each request in an order of their own.
fn draw_chains(world: &mut World, draws: &mut Draws) {
    let used = usize::from(world.header.used);
    let mut numbers: Vec<usize> = (1..=used).collect();
    draws.shuffle(&mut numbers);
    for number in numbers {
        let answer = world.messages[number];
        if answer.kind == message_kind::ANSWER && answer.taken == 1 {
            let request = &mut world.messages[usize::from(answer.request)];
            let head = std::mem::replace(&mut request.next, number as u16);
            world.messages[number].next = head;
        }
    }
}

fn draw_server(world: &World, draws: &mut Draws, entries: &[Entry]) -> Server {
    let newest = world.header.newest;
    let keys = if newest == LAST_VIEW {
        u32::MAX
    } else {
        (1 << newest) - 1
    };
    let view = match draws.below(4) {
        0 => 0,
        1 => draws.between(0, usize::from(newest)) as u8,
        _ => a_view(world, draws),
    };
    let faulty = draws.chance(35);
    let held = if !faulty {
        if draws.chance(75) {
            bit(view)
        } else {
            0
        }
    } else if draws.chance(30) {
        keys
    } else {
        draws.word() as u32 & keys
    };
    Server {
        view,
        faulty: u8::from(faulty),
        keys: held,
        entry: an_entry(draws, entries),
        ..Server::default()
    }
}

/// An open phase if the client has a request for it, else idle with anything.
fn draw_client(world: &World, draws: &mut Draws, entries: &[Entry], number: u8) -> Client {
    let kind = draws.between(1, 2) as u8;
    let wanted = if draws.chance(60) {
        message_kind::READ
    } else {
        message_kind::WRITE
    };
    let own = own_requests(world, number, wanted);
    match draws.pick(&own) {
        Some(request) if draws.chance(85) => open(world, draws, kind, *request),
        _ if draws.chance(30) => Client::default(),
        _ => Client {
            phase: phase::IDLE,
            kind,
            entry: an_entry(draws, entries),
            ..Client::default()
        },
    }
}

/// The client's messages of this kind, those with answers for preference.
fn own_requests(world: &World, client: u8, kind: u8) -> Vec<u16> {
    let used = usize::from(world.header.used);
    let own: Vec<u16> = (1..=used as u16)
        .filter(|number| {
            let message = &world.messages[usize::from(*number)];
            message.kind == kind && message.sender == client
        })
        .collect();
    let answered: Vec<u16> = own
        .iter()
        .copied()
        .filter(|number| world.messages[usize::from(*number)].next != 0)
        .collect();
    if answered.is_empty() {
        own
    } else {
        answered
    }
}

fn open(world: &World, draws: &mut Draws, kind: u8, request: u16) -> Client {
    let message = &world.messages[usize::from(request)];
    if message.kind == message_kind::WRITE {
        return Client {
            phase: phase::WRITING,
            kind,
            request,
            entry: message.entry,
            ..Client::default()
        };
    }
    let value = if kind == operation_kind::WRITE {
        draws.word() as u32
    } else {
        0
    };
    Client {
        phase: phase::READING,
        kind,
        request,
        entry: Entry::new(0, 0, value),
        ..Client::default()
    }
}
