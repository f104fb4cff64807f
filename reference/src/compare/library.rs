//! The calls that both sides answer, packed as the C interface packs
//! them: the refusal, and 256 times the result beside it.

use crate::judge::judge;
use crate::load::load;
use crate::operations;
use crate::phase;
use crate::quorum::{packed, quorum_size};
use crate::refusal::Reason;
use crate::shorten::shorten;
use crate::single;
use crate::vouch::{vouch, vouch_threshold};

/// Something that answers the calls of the C interface.
pub trait Library {
    /// The fresh world: the refusal.
    fn fresh(&self, image: &mut [u8], members: u32, f: u8, r: u8) -> u64;
    /// Both sizes: the refusal, and the read size + 256 * the write size.
    fn quorum(&self, n: u32, f: u32, r: u32) -> u64;
    /// One step: the refusal, and the client whose operation completed, or 0.
    fn step(&self, image: &mut [u8], step: &[u8]) -> u64;
    /// The premise: the refusal, and 1 if it holds.
    fn premise(&self, image: &[u8]) -> u64;
    /// A journal: the refusal, and the steps done.
    fn replay(&self, image: &mut [u8], journal: &[u8]) -> u64;
    /// The part of a journal after so many steps: as a replay of it.
    fn resume(&self, image: &mut [u8], journal: &[u8], steps: u64) -> u64;
    /// The load of a seed: the refusal.
    fn load(&self, journal: &mut [u8], seed: u32, steps: u32) -> u64;
    /// A log: the refusal, and the operations in the order that is shown.
    fn judge(&self, log: &[u8], order: &mut [u8]) -> u64;
    /// The short journal behind a refusal: the refusal, and its steps.
    fn shorten(
        &self,
        image: &mut [u8],
        members: u32,
        f: u8,
        r: u8,
        journal: &[u8],
        shorter: &mut [u8],
    ) -> u64;
    /// A journal, and the first step after which the premise does not hold: as
    /// a replay.
    fn watch(&self, image: &mut [u8], journal: &[u8], first: &mut [u8]) -> u64;
    /// The first choice among unsigned entries: the refusal.
    fn vouch(&self, answers: &[u8], n: u32, b: u32, entry: &mut [u8]) -> u64;
    /// The second choice, with the largest permitted b: the refusal.
    fn vouch_threshold(
        &self,
        answers: &[u8],
        n: u32,
        b: u32,
        largest: u32,
        entry: &mut [u8],
    ) -> u64;
    /// A server's rule on its record: the refusal, and 1 if it answers.
    fn server(&self, record: &mut [u8], asked: &[u8]) -> u64;
    /// A client's rule on its record: the refusal, and 1 if its operation is
    /// complete.
    fn client(&self, record: &mut [u8], asked: &[u8]) -> u64;
    /// The administrator's rule on its record: the refusal.
    fn administrator(&self, record: &mut [u8], asked: &[u8]) -> u64;
    /// The record of a phase is opened: the refusal.
    fn open(&self, phase: &mut [u8], kind: u8, view: u8, request: u16) -> u64;
    /// An answer given to a phase: the refusal, and 1 or 2 if it is closed.
    fn answer(&self, phase: &mut [u8], given: &[u8], entry: &mut [u8]) -> u64;
}

/// The refusal and the result in one number.
pub fn pack(refusal: u8, result: u64) -> u64 {
    u64::from(refusal) + 256 * result
}

/// The packed answer of a call that has a result only if it is not refused.
pub fn pack_result(answer: Result<u64, Reason>) -> u64 {
    match answer {
        Ok(result) => pack(0, result),
        Err(reason) => pack(reason.number(), 0),
    }
}

/// The reference itself as such a library.
pub struct Reference;

impl Library for Reference {
    fn fresh(&self, image: &mut [u8], members: u32, f: u8, r: u8) -> u64 {
        pack_result(operations::fresh(image, members, f, r).map(|()| 0))
    }

    fn quorum(&self, n: u32, f: u32, r: u32) -> u64 {
        pack_result(quorum_size(n, f, r).map(packed))
    }

    fn step(&self, image: &mut [u8], step: &[u8]) -> u64 {
        pack_result(operations::step(image, step).map(|done| u64::from(done.completed)))
    }

    fn premise(&self, image: &[u8]) -> u64 {
        pack_result(operations::premise(image).map(u64::from))
    }

    fn replay(&self, image: &mut [u8], journal: &[u8]) -> u64 {
        let replayed = operations::replay(image, journal);
        pack(replayed.refusal(), replayed.done as u64)
    }

    fn resume(&self, image: &mut [u8], journal: &[u8], steps: u64) -> u64 {
        let replayed = operations::resume(image, journal, steps);
        pack(replayed.refusal(), replayed.done as u64)
    }

    fn load(&self, journal: &mut [u8], seed: u32, steps: u32) -> u64 {
        pack_result(load(journal, seed, steps).map(|()| 0))
    }

    fn judge(&self, log: &[u8], order: &mut [u8]) -> u64 {
        pack_result(judge(log, order).map(|count| count as u64))
    }

    fn shorten(
        &self,
        image: &mut [u8],
        members: u32,
        f: u8,
        r: u8,
        journal: &[u8],
        shorter: &mut [u8],
    ) -> u64 {
        pack_result(shorten(image, members, f, r, journal, shorter).map(|steps| steps as u64))
    }

    fn watch(&self, image: &mut [u8], journal: &[u8], first: &mut [u8]) -> u64 {
        let replayed = operations::watch(image, journal, first).replayed;
        pack(replayed.refusal(), replayed.done as u64)
    }

    fn vouch(&self, answers: &[u8], n: u32, b: u32, entry: &mut [u8]) -> u64 {
        pack_result(vouch(answers, n, b, entry).map(|()| 0))
    }

    fn vouch_threshold(
        &self,
        answers: &[u8],
        n: u32,
        b: u32,
        largest: u32,
        entry: &mut [u8],
    ) -> u64 {
        pack_result(vouch_threshold(answers, n, b, largest, entry).map(|()| 0))
    }

    fn server(&self, record: &mut [u8], asked: &[u8]) -> u64 {
        pack_result(single::server_call(record, asked).map(u64::from))
    }

    fn client(&self, record: &mut [u8], asked: &[u8]) -> u64 {
        pack_result(single::client_call(record, asked).map(u64::from))
    }

    fn administrator(&self, record: &mut [u8], asked: &[u8]) -> u64 {
        pack_result(single::administrator_call(record, asked).map(|()| 0))
    }

    fn open(&self, record: &mut [u8], kind: u8, view: u8, request: u16) -> u64 {
        pack_result(phase::open(record, kind, view, request).map(|()| 0))
    }

    fn answer(&self, record: &mut [u8], given: &[u8], entry: &mut [u8]) -> u64 {
        pack_result(phase::answer(record, given, entry).map(|verdict| verdict.number()))
    }
}
