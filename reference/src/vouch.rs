//! Entries without a signature: the choice among entries that enough servers
//! vouch for.

use std::cmp::Reverse;

use crate::codec::Record;
use crate::entry::Entry;
use crate::layout::{ENTRY_SIZE, LAST_CLIENT, SERVERS};
use crate::refusal::{Flaw, Reason};

/// Bytes of an answer in a list.
pub const ANSWER_SIZE: usize = 4 + ENTRY_SIZE;

/// What one server shows.
#[derive(Clone, Copy, Debug, PartialEq, Eq)]
pub struct Answer {
    pub server: u8,
    pub spare: [u8; 3],
    pub entry: Entry,
}

impl Record<ANSWER_SIZE> for Answer {
    fn load(bytes: &[u8; ANSWER_SIZE]) -> Answer {
        let [server, s0, s1, s2, entry @ ..] = *bytes;
        Answer {
            server,
            spare: [s0, s1, s2],
            entry: Entry::load(&entry),
        }
    }

    fn bytes(&self) -> [u8; ANSWER_SIZE] {
        let [s0, s1, s2] = self.spare;
        let mut bytes = [0; ANSWER_SIZE];
        bytes[..4].copy_from_slice(&[self.server, s0, s1, s2]);
        bytes[4..].copy_from_slice(&self.entry.bytes());
        bytes
    }
}

impl Answer {
    pub fn new(server: u8, entry: Entry) -> Answer {
        Answer {
            server,
            spare: [0; 3],
            entry,
        }
    }
}

pub fn bytes(answers: &[Answer]) -> Vec<u8> {
    answers.iter().flat_map(Record::bytes).collect()
}

/// ⌈(n+2b+1)/2⌉: how many servers take a write, and how many answer. Meant for
/// n of at least 4b+1.
pub fn quorum(n: u32, b: u32) -> u32 {
    (n + 2 * b + 2) / 2
}

/// The first choice, for entries: b+1 servers vouch.
pub fn vouch(answers: &[u8], n: u32, b: u32, entry: &mut [u8]) -> Result<(), Reason> {
    let (answers, entry) = lent(answers, entry)?;
    sizes(n, b)?;
    well_formed(&answers, n, b)?;
    let chosen = largest(candidates(&answers, b + 1)).ok_or(Reason::NotVouched)?;
    *entry = chosen.bytes();
    Ok(())
}

/// The second choice, for thresholds: the largest permitted b plus 1 vouch, and
/// an entry is dropped if as many show larger stamps.
pub fn vouch_threshold(
    answers: &[u8],
    n: u32,
    b: u32,
    most: u32,
    entry: &mut [u8],
) -> Result<(), Reason> {
    let (answers, entry) = lent(answers, entry)?;
    sizes(n, b)?;
    if most < b || 4 * u64::from(most) > u64::from(n) - 1 {
        return Err(Reason::Malformed(Flaw::LargestB));
    }
    well_formed(&answers, n, b)?;
    let enough = most + 1;
    let mut entries = candidates(&answers, enough);
    entries.retain(|entry| against(&answers, entry) < enough);
    let chosen = largest(entries).ok_or(Reason::NotVouched)?;
    *entry = chosen.bytes();
    Ok(())
}

type EntryBytes = [u8; ENTRY_SIZE];

fn lent<'a>(
    answers: &[u8],
    entry: &'a mut [u8],
) -> Result<(Vec<Answer>, &'a mut EntryBytes), Reason> {
    if !answers.len().is_multiple_of(ANSWER_SIZE) {
        return Err(Reason::AnswersLength);
    }
    let entry = entry.try_into().map_err(|_| Reason::EntryLength)?;
    let (chunks, _) = answers.as_chunks();
    Ok((chunks.iter().map(Answer::load).collect(), entry))
}

fn sizes(n: u32, b: u32) -> Result<(), Reason> {
    if n as usize > SERVERS || u64::from(n) < 4 * u64::from(b) + 1 {
        return Err(Reason::Malformed(Flaw::Servers));
    }
    Ok(())
}

fn well_formed(answers: &[Answer], n: u32, b: u32) -> Result<(), Reason> {
    let malformed = |flaw| Err(Reason::Malformed(flaw));
    let mut seen = [false; SERVERS + 1];
    for answer in answers {
        if answer.spare != [0; 3] || answer.entry.spare != [0; 3] {
            return malformed(Flaw::Spare);
        }
        if answer.entry.writer > LAST_CLIENT {
            return malformed(Flaw::Writer);
        }
        if answer.server == 0 || u32::from(answer.server) > n {
            return malformed(Flaw::ServerRange);
        }
        if std::mem::replace(&mut seen[usize::from(answer.server)], true) {
            return malformed(Flaw::ServerTwice);
        }
    }
    if (answers.len() as u32) < quorum(n, b) {
        return malformed(Flaw::TooFewAnswers);
    }
    Ok(())
}

/// The entries that at least so many servers show, equal in every field.
fn candidates(answers: &[Answer], enough: u32) -> Vec<Entry> {
    let shown = |entry: &Entry| answers.iter().filter(|other| other.entry == *entry).count();
    answers
        .iter()
        .map(|answer| answer.entry)
        .filter(|entry| shown(entry) as u32 >= enough)
        .collect()
}

/// How many servers show a larger stamp.
fn against(answers: &[Answer], entry: &Entry) -> u32 {
    let larger = answers
        .iter()
        .filter(|answer| answer.entry.stamp() > entry.stamp());
    larger.count() as u32
}

/// The largest stamp, for equal stamps the smaller value.
fn largest(entries: Vec<Entry>) -> Option<Entry> {
    entries
        .into_iter()
        .max_by_key(|entry| (entry.stamp(), Reverse(entry.value)))
}
