//! Logs from elsewhere, and answers without a signature.

use crate::bytes::{self, ENTRY, LOG_LINE, ORDER_LINE, UNSIGNED_ANSWER};
use crate::numbers::{record, u16_at, u8_at};
use crate::records::Kind;
use crate::{Entry, Refusal};

/// One operation of a log.
///
/// ```
/// use zemawulo::{judge, Entry, Kind, LogLine, Refusal};
///
/// let read = LogLine::new(3, 4, Kind::Read, Entry::new(1, 1, 7));
/// let write = LogLine::new(1, 2, Kind::Write, Entry::new(1, 1, 7));
/// assert_eq!(judge(&[read, write]), Ok(vec![2, 1]));
/// // The read ends before the write begins.
/// let late = LogLine::new(5, 6, Kind::Write, Entry::new(1, 1, 7));
/// assert_eq!(judge(&[read, late]), Err(Refusal::NoOrder));
/// ```
#[derive(Clone, Copy, Debug, PartialEq, Eq, Hash)]
pub struct LogLine([u8; LOG_LINE]);

impl LogLine {
    /// The line of an operation; an end of 0 is unfinished.
    pub fn new(begin: u16, end: u16, kind: Kind, entry: Entry) -> LogLine {
        let (begin, end) = (begin.to_le_bytes(), end.to_le_bytes());
        let kind = [kind.number(), 0, 0, 0];
        LogLine(record(&[&begin, &end, &kind, &entry.to_bytes()]))
    }

    /// The line that these bytes spell.
    pub const fn from_bytes(bytes: [u8; LOG_LINE]) -> LogLine {
        LogLine(bytes)
    }

    /// Its bytes.
    pub const fn to_bytes(self) -> [u8; LOG_LINE] {
        self.0
    }

    /// The number at which it began.
    pub fn begin(self) -> u16 {
        u16_at(&self.0, 0)
    }

    /// The number at which it ended, or 0.
    pub fn end(self) -> u16 {
        u16_at(&self.0, 2)
    }

    /// What it is.
    pub fn kind(self) -> Option<Kind> {
        Kind::of(u8_at(&self.0, 4))
    }

    /// What it wrote or returned.
    pub fn entry(self) -> Entry {
        Entry::at(&self.0, 8)
    }
}

/// Judges a log: the numbers of its lines, the first being 1, in an order in
/// which each read returns the last write before it, what ended before another
/// began comes first, and stamps never fall. Refused with 13 if there is none,
/// with 14 if the log breaks its rules.
pub fn judge(log: &[LogLine]) -> Result<Vec<u16>, Refusal> {
    let bytes: Vec<u8> = log.iter().flat_map(|line| line.to_bytes()).collect();
    let mut order = vec![0; log.len().saturating_mul(ORDER_LINE)];
    let operations = bytes::judge(&bytes, &mut order)?;
    let places = order.chunks_exact(ORDER_LINE).map(|place| u16_at(place, 0));
    let operations = usize::try_from(operations).unwrap_or(usize::MAX);
    Ok(places.take(operations).collect())
}

/// An answer without a signature: a server and the entry that it shows.
///
/// ```
/// use zemawulo::{vouch, UnsignedAnswer, Entry, Refusal};
///
/// let written = Entry::new(3, 2, 7);
/// let mut answers = vec![UnsignedAnswer::new(5, Entry::new(9, 9, 9))];
/// answers.extend((1..=3).map(|server| UnsignedAnswer::new(server, written)));
/// // One of five servers lies.
/// assert_eq!(vouch(&answers, 5, 1), Ok(written));
/// assert_eq!(vouch(&answers[1..], 5, 1), Err(Refusal::Malformed));
/// ```
#[derive(Clone, Copy, Debug, PartialEq, Eq, Hash)]
pub struct UnsignedAnswer([u8; UNSIGNED_ANSWER]);

impl UnsignedAnswer {
    /// The answer of a server.
    pub fn new(server: u8, entry: Entry) -> UnsignedAnswer {
        UnsignedAnswer(record(&[&[server, 0, 0, 0], &entry.to_bytes()]))
    }

    /// The answer that these bytes spell.
    pub const fn from_bytes(bytes: [u8; UNSIGNED_ANSWER]) -> UnsignedAnswer {
        UnsignedAnswer(bytes)
    }

    /// Its bytes.
    pub const fn to_bytes(self) -> [u8; UNSIGNED_ANSWER] {
        self.0
    }

    /// Who answers.
    pub fn server(self) -> u8 {
        u8_at(&self.0, 0)
    }

    /// What it shows.
    pub fn entry(self) -> Entry {
        Entry::at(&self.0, 4)
    }
}

fn list(answers: &[UnsignedAnswer]) -> Vec<u8> {
    answers
        .iter()
        .flat_map(|answer| answer.to_bytes())
        .collect()
}

/// Chooses among entries without a signature: of those that at least b+1 of the n
/// servers show, the largest stamp, for equal stamps the smaller value. Refused
/// with 14 and 16.
pub fn vouch(answers: &[UnsignedAnswer], n: u32, b: u32) -> Result<Entry, Refusal> {
    let mut entry = [0; ENTRY];
    bytes::vouch(&list(answers), n, b, &mut entry)?;
    Ok(Entry::from_bytes(entry))
}

/// The same for thresholds: the largest permitted b plus 1 in place of b+1, and
/// an entry is dropped if that many servers show larger stamps.
pub fn vouch_threshold(
    answers: &[UnsignedAnswer],
    n: u32,
    b: u32,
    largest: u32,
) -> Result<Entry, Refusal> {
    let mut entry = [0; ENTRY];
    bytes::vouch_threshold(&list(answers), n, b, largest, &mut entry)?;
    Ok(Entry::from_bytes(entry))
}
