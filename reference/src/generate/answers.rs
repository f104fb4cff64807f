//! Lists of answers to choose from: of servers that took a write, of others and
//! of liars, and spoiled ones.

use crate::entry::Entry;
use crate::layout::LAST_CLIENT;
use crate::vouch::{quorum, Answer};
use crate::xorshift::Draws;

/// A list with its n, b and largest permitted b.
#[derive(Clone, Debug)]
pub struct List {
    pub answers: Vec<Answer>,
    pub n: u32,
    pub b: u32,
    pub largest: u32,
}

/// A list in which some write is vouched for or is not; now and then spoiled.
pub fn list(draws: &mut Draws) -> List {
    let n = draws.between(1, 32) as u32;
    let largest = draws.below((n as usize - 1) / 4 + 1) as u32;
    let b = draws.below(largest as usize + 1) as u32;
    let pool = entries(draws);
    // The first of the pool is shown by most, or by no more than others.
    let percent = *draws.pick(&[30, 60, 85, 100]).expect("there are some");
    // Now and then each server shows an entry of its own.
    let scattered = draws.chance(15);
    let mut servers: Vec<u8> = (1..=n as u8).collect();
    draws.shuffle(&mut servers);
    servers.truncate(draws.between(quorum(n, b) as usize, n as usize));
    let answers = servers
        .into_iter()
        .map(|server| {
            let mut entry = if draws.chance(percent) {
                pool[0]
            } else {
                pool[draws.below(pool.len())]
            };
            if scattered {
                entry.value = u32::from(server);
            }
            Answer::new(server, entry)
        })
        .collect();
    let mut list = List {
        answers,
        n,
        b,
        largest,
    };
    if draws.chance(30) {
        spoil(draws, &mut list);
    }
    list
}

/// Entries that are equal in some fields and not in others, the empty one among
/// them.
fn entries(draws: &mut Draws) -> Vec<Entry> {
    let mut pool: Vec<Entry> = (0..draws.between(1, 6))
        .map(|_| {
            let count = *draws.pick(&[0, 1, 2, 2, 3, u32::MAX]).expect("counts");
            let writer = draws.below(3) as u8;
            Entry::new(count, writer, draws.below(3) as u32)
        })
        .collect();
    pool.push(Entry::EMPTY);
    draws.shuffle(&mut pool);
    pool
}

/// Puts something into the list that no list may have, most often.
fn spoil(draws: &mut Draws, list: &mut List) {
    let place = draws.below(list.answers.len());
    let other = list.answers[draws.below(list.answers.len())].server;
    let answer = &mut list.answers[place];
    match draws.below(11) {
        0 => answer.server = 0,
        1 => answer.server = list.n as u8 + 1,
        2 => answer.server = other,
        3 => answer.spare[draws.below(3)] = 1,
        4 => answer.entry.spare[draws.below(3)] = 1,
        5 => answer.entry.writer = draws.between(usize::from(LAST_CLIENT) + 1, 255) as u8,
        6 => list.answers.truncate(quorum(list.n, list.b) as usize - 1),
        7 => list.b = *draws.pick(&[9, 0x4000_0000, u32::MAX]).expect("sizes"),
        8 => list.n = *draws.pick(&[0, 33, 256, u32::MAX]).expect("sizes"),
        9 => list.largest = *draws.pick(&[9, 0x4000_0000, u32::MAX]).expect("sizes"),
        _ => list.largest = list.b.wrapping_sub(1),
    }
}
