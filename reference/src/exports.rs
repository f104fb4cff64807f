//! The proved library through its C interface.
//!
//! Every call passes a pointer and the length of what it points to; the library
//! tests all else itself.

use crate::compare::library::Library;

extern "C" {
    fn zw_fresh(image: *mut u8, n: usize, members: u32, f: u8, r: u8) -> u64;
    fn zw_quorum(n: u32, f: u32, r: u32) -> u64;
    fn zw_step(image: *mut u8, n: usize, step: *const u8, m: usize) -> u64;
    fn zw_premise(image: *const u8, n: usize) -> u64;
    fn zw_replay(image: *mut u8, n: usize, journal: *const u8, m: usize) -> u64;
    fn zw_resume(image: *mut u8, n: usize, journal: *const u8, m: usize, steps: u64) -> u64;
    fn zw_load(journal: *mut u8, n: usize, seed: u32, steps: u32) -> u64;
    fn zw_judge(log: *const u8, n: usize, order: *mut u8, m: usize) -> u64;
    fn zw_shorten(
        image: *mut u8,
        n: usize,
        members: u32,
        f: u8,
        r: u8,
        journal: *const u8,
        m: usize,
        shorter: *mut u8,
        k: usize,
    ) -> u64;
    fn zw_watch(
        image: *mut u8,
        n: usize,
        journal: *const u8,
        m: usize,
        first: *mut u8,
        k: usize,
    ) -> u64;
    fn zw_vouch(answers: *const u8, m: usize, n: u32, b: u32, entry: *mut u8, k: usize) -> u64;
    fn zw_vouch_threshold(
        answers: *const u8,
        m: usize,
        n: u32,
        b: u32,
        largest: u32,
        entry: *mut u8,
        k: usize,
    ) -> u64;
    fn zw_server(server: *mut u8, n: usize, call: *const u8, m: usize) -> u64;
    fn zw_client(client: *mut u8, n: usize, call: *const u8, m: usize) -> u64;
    fn zw_administrator(record: *mut u8, n: usize, call: *const u8, m: usize) -> u64;
    fn zw_open(phase: *mut u8, n: usize, kind: u8, view: u8, request: u16) -> u64;
    fn zw_answer(
        phase: *mut u8,
        n: usize,
        call: *const u8,
        m: usize,
        entry: *mut u8,
        k: usize,
    ) -> u64;
}

/// A function that writes to one buffer and reads another.
type WithTwo = unsafe extern "C" fn(*mut u8, usize, *const u8, usize) -> u64;

fn with_two(function: WithTwo, lent: &mut [u8], read: &[u8]) -> u64 {
    // SAFETY: both are pointer and length of slices, and they do not overlap.
    unsafe { function(lent.as_mut_ptr(), lent.len(), read.as_ptr(), read.len()) }
}

/// The library that is linked.
pub struct Exports;

impl Library for Exports {
    fn fresh(&self, image: &mut [u8], members: u32, f: u8, r: u8) -> u64 {
        // SAFETY: the pointer and length are those of a slice lent for writing.
        unsafe { zw_fresh(image.as_mut_ptr(), image.len(), members, f, r) }
    }

    fn quorum(&self, n: u32, f: u32, r: u32) -> u64 {
        // SAFETY: the call takes numbers alone.
        unsafe { zw_quorum(n, f, r) }
    }

    fn step(&self, image: &mut [u8], step: &[u8]) -> u64 {
        with_two(zw_step, image, step)
    }

    fn premise(&self, image: &[u8]) -> u64 {
        // SAFETY: the pointer and length are those of a slice.
        unsafe { zw_premise(image.as_ptr(), image.len()) }
    }

    fn replay(&self, image: &mut [u8], journal: &[u8]) -> u64 {
        with_two(zw_replay, image, journal)
    }

    fn resume(&self, image: &mut [u8], journal: &[u8], steps: u64) -> u64 {
        let (n, m) = (image.len(), journal.len());
        // SAFETY: both are pointer and length of slices, and they do not overlap.
        unsafe { zw_resume(image.as_mut_ptr(), n, journal.as_ptr(), m, steps) }
    }

    fn load(&self, journal: &mut [u8], seed: u32, steps: u32) -> u64 {
        // SAFETY: the pointer and length are those of a slice lent for writing.
        unsafe { zw_load(journal.as_mut_ptr(), journal.len(), seed, steps) }
    }

    fn judge(&self, log: &[u8], order: &mut [u8]) -> u64 {
        // SAFETY: both are pointer and length of slices, and they do not overlap.
        unsafe { zw_judge(log.as_ptr(), log.len(), order.as_mut_ptr(), order.len()) }
    }

    fn shorten(
        &self,
        image: &mut [u8],
        members: u32,
        f: u8,
        r: u8,
        journal: &[u8],
        shorter: &mut [u8],
    ) -> u64 {
        // SAFETY: all are pointer and length of slices, and they do not overlap.
        unsafe {
            zw_shorten(
                image.as_mut_ptr(),
                image.len(),
                members,
                f,
                r,
                journal.as_ptr(),
                journal.len(),
                shorter.as_mut_ptr(),
                shorter.len(),
            )
        }
    }

    fn watch(&self, image: &mut [u8], journal: &[u8], first: &mut [u8]) -> u64 {
        // SAFETY: all are pointer and length of slices, and they do not overlap.
        unsafe {
            zw_watch(
                image.as_mut_ptr(),
                image.len(),
                journal.as_ptr(),
                journal.len(),
                first.as_mut_ptr(),
                first.len(),
            )
        }
    }

    fn vouch(&self, answers: &[u8], n: u32, b: u32, entry: &mut [u8]) -> u64 {
        let (m, k) = (answers.len(), entry.len());
        // SAFETY: both are pointer and length of slices, and they do not overlap.
        unsafe { zw_vouch(answers.as_ptr(), m, n, b, entry.as_mut_ptr(), k) }
    }

    fn vouch_threshold(
        &self,
        answers: &[u8],
        n: u32,
        b: u32,
        largest: u32,
        entry: &mut [u8],
    ) -> u64 {
        let (m, k) = (answers.len(), entry.len());
        // SAFETY: both are pointer and length of slices, and they do not overlap.
        unsafe { zw_vouch_threshold(answers.as_ptr(), m, n, b, largest, entry.as_mut_ptr(), k) }
    }

    fn server(&self, record: &mut [u8], asked: &[u8]) -> u64 {
        with_two(zw_server, record, asked)
    }

    fn client(&self, record: &mut [u8], asked: &[u8]) -> u64 {
        with_two(zw_client, record, asked)
    }

    fn administrator(&self, record: &mut [u8], asked: &[u8]) -> u64 {
        with_two(zw_administrator, record, asked)
    }

    fn open(&self, phase: &mut [u8], kind: u8, view: u8, request: u16) -> u64 {
        // SAFETY: the pointer and length are those of a slice lent for writing.
        unsafe { zw_open(phase.as_mut_ptr(), phase.len(), kind, view, request) }
    }

    fn answer(&self, phase: &mut [u8], given: &[u8], entry: &mut [u8]) -> u64 {
        let (lent, n) = (phase.as_mut_ptr(), phase.len());
        let (written, k) = (entry.as_mut_ptr(), entry.len());
        // SAFETY: all are pointer and length of slices, and they do not overlap.
        unsafe { zw_answer(lent, n, given.as_ptr(), given.len(), written, k) }
    }
}
