//! Every call of the C interface on lent bytes, as `zemawulo.h` has them. The
//! library tests all that it is given, so no call here has a condition.
//! `docs/LAYOUT.md` has every byte.

use crate::raw;
use crate::Refusal;

/// Bytes of an image.
pub const IMAGE: usize = 21_744;
/// Bytes of a step.
pub const STEP: usize = 12;
/// Bytes of the number that a watched replay writes.
pub const FIRST: usize = 8;
/// Bytes of a view's record in an image.
pub const VIEW: usize = 8;
/// Bytes of a server's record.
pub const SERVER: usize = 20;
/// Bytes of a client's record.
pub const CLIENT: usize = 20;
/// Bytes of a message in an image.
pub const MESSAGE: usize = 20;
/// Bytes of the administrator's record.
pub const ADMINISTRATOR: usize = 4;
/// Bytes of what is asked of a server.
pub const SERVER_CALL: usize = 24;
/// Bytes of what is asked of a client.
pub const CLIENT_CALL: usize = 17;
/// Bytes of what is asked of the administrator.
pub const ADMINISTRATOR_CALL: usize = 12;
/// Bytes of the record of a phase.
pub const PHASE: usize = 644;
/// Bytes of an answer with the view that it is tagged with.
pub const ANSWER_CALL: usize = MESSAGE + VIEW;
/// Bytes of a line of a log.
pub const LOG_LINE: usize = 20;
/// Bytes of a line's number in an order.
pub const ORDER_LINE: usize = 2;
/// Bytes of an entry.
pub const ENTRY: usize = 12;
/// Bytes of an answer without a signature.
pub const UNSIGNED_ANSWER: usize = 16;
/// The lines of a log that is judged, at most.
pub const LOG_LINES: usize = 256;
/// The steps of a journal that is shortened, at most.
pub const SHORTEN_STEPS: usize = 512;

/// What a replay did, and the refusal that stopped it, if one did.
#[derive(Clone, Copy, Debug, PartialEq, Eq)]
pub struct Replayed {
    /// The steps done, exact below 2^56.
    pub steps: u64,
    /// The refusal of the step behind them.
    pub stop: Option<Refusal>,
}

fn refusal(answer: u64) -> Option<Refusal> {
    Refusal::from_number((answer % 256) as u8)
}

fn result(answer: u64) -> Result<u64, Refusal> {
    match refusal(answer) {
        None => Ok(answer / 256),
        Some(refusal) => Err(refusal),
    }
}

/// How many servers close READ, and how many WRITE and END.
#[derive(Clone, Copy, Debug, PartialEq, Eq, Hash)]
pub struct Sizes {
    /// Servers that close READ.
    pub read: u32,
    /// Servers that close WRITE and END.
    pub write: u32,
}

/// Makes the fresh world of these members, bit s-1 for server s, f and read size
/// r: 0 for a quorum, or at least 2f+1 and twice r at most n+f+1.
pub fn fresh(image: &mut [u8], members: u32, f: u8, r: u8) -> Result<(), Refusal> {
    result(raw::fresh(image, members, f, r)).map(|_| ())
}

/// Both sizes of n servers with threshold f and read size r, 0 for a quorum.
///
/// ```
/// use zemawulo::{quorum, Refusal, Sizes};
///
/// assert_eq!(quorum(10, 1, 0), Ok(Sizes { read: 6, write: 6 }));
/// assert_eq!(quorum(10, 1, 3), Ok(Sizes { read: 3, write: 9 }));
/// assert_eq!(quorum(10, 1, 2), Err(Refusal::Size));
/// ```
pub fn quorum(n: u32, f: u32, r: u32) -> Result<Sizes, Refusal> {
    result(raw::quorum(n, f, r)).map(|sizes| Sizes {
        read: (sizes % 256) as u32,
        write: (sizes / 256) as u32,
    })
}

/// One step. Gives the number of the client whose operation it completed.
pub fn step(image: &mut [u8], step: &[u8]) -> Result<Option<u8>, Refusal> {
    let client = result(raw::step(image, step))?;
    Ok((client != 0).then_some(client as u8))
}

/// Whether no view has more faulty servers with its key than its threshold.
pub fn premise(image: &[u8]) -> Result<bool, Refusal> {
    result(raw::premise(image)).map(|holds| holds == 1)
}

fn replayed(answer: u64) -> Replayed {
    Replayed {
        steps: answer / 256,
        stop: refusal(answer),
    }
}

/// The steps of a journal up to the first that is refused.
pub fn replay(image: &mut [u8], journal: &[u8]) -> Replayed {
    replayed(raw::replay(image, journal))
}

/// The rest of a journal, up to the first step that is refused: its steps but
/// the first ones, which were done before on this image. Refused with 1 if it
/// has fewer. `Replayed::steps` counts the steps done now.
pub fn resume(image: &mut [u8], journal: &[u8], steps: u64) -> Replayed {
    replayed(raw::resume(image, journal, steps))
}

/// A replay that watches the premise: what it did, and the first step after which
/// some view has more faulty servers with its key than its threshold, if there
/// is one; beside a stop too.
pub fn watch(image: &mut [u8], journal: &[u8]) -> (Replayed, Option<u64>) {
    let mut first = [0; FIRST];
    let answer = raw::watch(image, journal, &mut first);
    let first = u64::from_le_bytes(first);
    (replayed(answer), (first != 0).then_some(first))
}

/// Writes the load of a seed and a number of steps, 12 bytes a step. Refused with
/// 1 if the journal has another length.
pub fn load(journal: &mut [u8], seed: u32, steps: u32) -> Result<(), Refusal> {
    result(raw::load(journal, seed, steps)).map(|_| ())
}

/// Judges a log of lines of 20 bytes. Gives the number of operations of an order;
/// `order`, 2 bytes a line, then has their lines' numbers, zero after them.
/// Refused with 13 if no order exists.
pub fn judge(log: &[u8], order: &mut [u8]) -> Result<u64, Refusal> {
    result(raw::judge(log, order))
}

/// The short journal behind the refusal that stops the replay of a journal from
/// the fresh world of these members, f and r. Gives the number of its steps;
/// `shorter`, as long as the journal, begins with them and is zero after them.
/// When done, and after 15, the image holds the fresh world.
pub fn shorten(
    image: &mut [u8],
    members: u32,
    f: u8,
    r: u8,
    journal: &[u8],
    shorter: &mut [u8],
) -> Result<u64, Refusal> {
    result(raw::shorten(image, members, f, r, journal, shorter))
}

/// Chooses among entries without a signature: of those that at least b+1 of the n
/// servers show, the one with the largest stamp, written to `entry`.
pub fn vouch(answers: &[u8], n: u32, b: u32, entry: &mut [u8]) -> Result<(), Refusal> {
    result(raw::vouch(answers, n, b, entry)).map(|_| ())
}

/// The same for thresholds: the largest permitted b plus 1 in place of b+1, and
/// an entry is dropped if that many servers show larger stamps.
pub fn vouch_threshold(
    answers: &[u8],
    n: u32,
    b: u32,
    largest: u32,
    entry: &mut [u8],
) -> Result<(), Refusal> {
    result(raw::vouch_threshold(answers, n, b, largest, entry)).map(|_| ())
}

/// A server's rule on its record. True if a message that reached it (rule 3) is
/// answered, with the view and entry of its record. A false answer (rule 6) that
/// is not refused is false: the record stays, and shows nothing of it.
pub fn server(server: &mut [u8], call: &[u8]) -> Result<bool, Refusal> {
    result(raw::server(server, call)).map(|answers| answers == 1)
}

/// A client's rule on its record: it begins, closes a phase or gives up. The last
/// byte of a close is 1 if all answers carry the entry and the read size is not
/// below the write size. True if the operation is complete.
pub fn client(client: &mut [u8], call: &[u8]) -> Result<bool, Refusal> {
    result(raw::client(client, call)).map(|complete| complete == 1)
}

/// The administrator's rule on its record.
pub fn administrator(administrator: &mut [u8], call: &[u8]) -> Result<(), Refusal> {
    result(raw::administrator(administrator, call)).map(|_| ())
}

/// Opens the record of a phase: the kind of its request (1 READ, 2 WRITE, 3 END),
/// the view that END ends, 0 for the others, and the request's number.
pub fn open(phase: &mut [u8], kind: u8, view: u8, request: u16) -> Result<(), Refusal> {
    result(raw::open(phase, kind, view, request)).map(|_| ())
}

/// One answer given to a phase, as its message and the view that it is tagged
/// with. 0: the phase is open. 1: it is closed, and `entry` is written. 2: as 1,
/// and a read may end without its WRITE.
pub fn answer(phase: &mut [u8], call: &[u8], entry: &mut [u8]) -> Result<u64, Refusal> {
    result(raw::answer(phase, call, entry))
}
