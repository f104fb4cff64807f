//! The C interface, each function with a slice for a pointer and its length.
//!
//! The library reads and writes only the bytes that it is lent, keeps no pointer,
//! and allows every length and every byte.

mod c {
    extern "C" {
        pub fn zw_fresh(image: *mut u8, n: usize, members: u32, f: u8, r: u8) -> u64;
        pub fn zw_quorum(n: u32, f: u32, r: u32) -> u64;
        pub fn zw_step(image: *mut u8, n: usize, step: *const u8, m: usize) -> u64;
        pub fn zw_premise(image: *const u8, n: usize) -> u64;
        pub fn zw_replay(image: *mut u8, n: usize, journal: *const u8, m: usize) -> u64;
        pub fn zw_resume(image: *mut u8, n: usize, journal: *const u8, m: usize, steps: u64)
            -> u64;
        pub fn zw_watch(
            image: *mut u8,
            n: usize,
            journal: *const u8,
            m: usize,
            first: *mut u8,
            k: usize,
        ) -> u64;
        pub fn zw_load(journal: *mut u8, n: usize, seed: u32, steps: u32) -> u64;
        pub fn zw_judge(log: *const u8, n: usize, order: *mut u8, m: usize) -> u64;
        pub fn zw_shorten(
            image: *mut u8,
            n: usize,
            members: u32,
            f: u8,
            r: u8,
            journal: *const u8,
            m: usize,
            shorter: *mut u8,
            k: usize,
        ) -> u64;
        pub fn zw_vouch(
            answers: *const u8,
            m: usize,
            n: u32,
            b: u32,
            entry: *mut u8,
            k: usize,
        ) -> u64;
        pub fn zw_vouch_threshold(
            answers: *const u8,
            m: usize,
            n: u32,
            b: u32,
            largest: u32,
            entry: *mut u8,
            k: usize,
        ) -> u64;
        pub fn zw_server(server: *mut u8, n: usize, call: *const u8, m: usize) -> u64;
        pub fn zw_client(client: *mut u8, n: usize, call: *const u8, m: usize) -> u64;
        pub fn zw_administrator(record: *mut u8, n: usize, call: *const u8, m: usize) -> u64;
        pub fn zw_open(phase: *mut u8, n: usize, kind: u8, view: u8, request: u16) -> u64;
        pub fn zw_answer(
            phase: *mut u8,
            n: usize,
            call: *const u8,
            m: usize,
            entry: *mut u8,
            k: usize,
        ) -> u64;
    }
}

type OnRecord = unsafe extern "C" fn(*mut u8, usize, *const u8, usize) -> u64;

fn on(function: OnRecord, lent: &mut [u8], read: &[u8]) -> u64 {
    // SAFETY: both are pointer and length of slices, which do not overlap.
    unsafe { function(lent.as_mut_ptr(), lent.len(), read.as_ptr(), read.len()) }
}

pub fn fresh(image: &mut [u8], members: u32, f: u8, r: u8) -> u64 {
    // SAFETY: the pointer and length are those of a slice lent for writing.
    unsafe { c::zw_fresh(image.as_mut_ptr(), image.len(), members, f, r) }
}

pub fn quorum(n: u32, f: u32, r: u32) -> u64 {
    // SAFETY: the call takes numbers alone.
    unsafe { c::zw_quorum(n, f, r) }
}

pub fn premise(image: &[u8]) -> u64 {
    // SAFETY: the pointer and length are those of a slice.
    unsafe { c::zw_premise(image.as_ptr(), image.len()) }
}

pub fn step(image: &mut [u8], step: &[u8]) -> u64 {
    on(c::zw_step, image, step)
}

pub fn replay(image: &mut [u8], journal: &[u8]) -> u64 {
    on(c::zw_replay, image, journal)
}

pub fn resume(image: &mut [u8], journal: &[u8], steps: u64) -> u64 {
    let (lent, read) = (image.as_mut_ptr(), journal.as_ptr());
    // SAFETY: both are pointer and length of slices, which do not overlap.
    unsafe { c::zw_resume(lent, image.len(), read, journal.len(), steps) }
}

pub fn watch(image: &mut [u8], journal: &[u8], first: &mut [u8]) -> u64 {
    // SAFETY: all are pointer and length of slices, which do not overlap.
    unsafe {
        c::zw_watch(
            image.as_mut_ptr(),
            image.len(),
            journal.as_ptr(),
            journal.len(),
            first.as_mut_ptr(),
            first.len(),
        )
    }
}

pub fn load(journal: &mut [u8], seed: u32, steps: u32) -> u64 {
    // SAFETY: the pointer and length are those of a slice lent for writing.
    unsafe { c::zw_load(journal.as_mut_ptr(), journal.len(), seed, steps) }
}

pub fn judge(log: &[u8], order: &mut [u8]) -> u64 {
    let (read, lent) = (log.as_ptr(), order.as_mut_ptr());
    // SAFETY: both are pointer and length of slices, which do not overlap.
    unsafe { c::zw_judge(read, log.len(), lent, order.len()) }
}

pub fn shorten(
    image: &mut [u8],
    members: u32,
    f: u8,
    r: u8,
    journal: &[u8],
    shorter: &mut [u8],
) -> u64 {
    let (lent, n) = (image.as_mut_ptr(), image.len());
    let (read, m) = (journal.as_ptr(), journal.len());
    let (written, k) = (shorter.as_mut_ptr(), shorter.len());
    // SAFETY: all three are pointer and length of slices, which do not overlap.
    unsafe { c::zw_shorten(lent, n, members, f, r, read, m, written, k) }
}

pub fn vouch(answers: &[u8], n: u32, b: u32, entry: &mut [u8]) -> u64 {
    let (read, lent) = (answers.as_ptr(), entry.as_mut_ptr());
    // SAFETY: both are pointer and length of slices, which do not overlap.
    unsafe { c::zw_vouch(read, answers.len(), n, b, lent, entry.len()) }
}

pub fn vouch_threshold(answers: &[u8], n: u32, b: u32, largest: u32, entry: &mut [u8]) -> u64 {
    let (read, lent) = (answers.as_ptr(), entry.as_mut_ptr());
    // SAFETY: both are pointer and length of slices, which do not overlap.
    unsafe { c::zw_vouch_threshold(read, answers.len(), n, b, largest, lent, entry.len()) }
}

pub fn server(server: &mut [u8], call: &[u8]) -> u64 {
    on(c::zw_server, server, call)
}

pub fn client(client: &mut [u8], call: &[u8]) -> u64 {
    on(c::zw_client, client, call)
}

pub fn administrator(administrator: &mut [u8], call: &[u8]) -> u64 {
    on(c::zw_administrator, administrator, call)
}

pub fn open(phase: &mut [u8], kind: u8, view: u8, request: u16) -> u64 {
    // SAFETY: the pointer and length are those of a slice lent for writing.
    unsafe { c::zw_open(phase.as_mut_ptr(), phase.len(), kind, view, request) }
}

pub fn answer(phase: &mut [u8], call: &[u8], entry: &mut [u8]) -> u64 {
    let (lent, n) = (phase.as_mut_ptr(), phase.len());
    let (written, k) = (entry.as_mut_ptr(), entry.len());
    // SAFETY: all three are pointer and length of slices, which do not overlap.
    unsafe { c::zw_answer(lent, n, call.as_ptr(), call.len(), written, k) }
}
