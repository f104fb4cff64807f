//! Judging a log from elsewhere: is there an order of its operations as
//! promised, with stamps never falling along it?

use crate::codec::Record;
use crate::entry::{Entry, Stamp};
use crate::history::claim::{fits, Order};
use crate::history::operations::{Kind, Operation};
use crate::history::search::any_order;
use crate::history::sorted::by_stamp;
use crate::layout::{ENTRY_SIZE, LAST_CLIENT};
use crate::refusal::{Flaw, Reason};

/// Bytes of a line of a log, and of its place in an order.
pub const LINE_SIZE: usize = 8 + ENTRY_SIZE;
pub const PLACE_SIZE: usize = 2;
/// The most lines of a log.
pub const LINES: usize = 256;

/// Kinds of a logged operation.
const WRITE: u8 = 1;
const READ: u8 = 2;

/// One logged operation. End 0 is unfinished.
#[derive(Clone, Copy, Debug, PartialEq, Eq)]
pub struct Line {
    pub begin: u16,
    pub end: u16,
    pub kind: u8,
    pub spare: [u8; 3],
    pub entry: Entry,
}

impl Record<LINE_SIZE> for Line {
    fn load(bytes: &[u8; LINE_SIZE]) -> Line {
        let [b0, b1, e0, e1, kind, s0, s1, s2, entry @ ..] = *bytes;
        Line {
            begin: u16::from_le_bytes([b0, b1]),
            end: u16::from_le_bytes([e0, e1]),
            kind,
            spare: [s0, s1, s2],
            entry: Entry::load(&entry),
        }
    }

    fn bytes(&self) -> [u8; LINE_SIZE] {
        let [b0, b1] = self.begin.to_le_bytes();
        let [e0, e1] = self.end.to_le_bytes();
        let [s0, s1, s2] = self.spare;
        let mut bytes = [0; LINE_SIZE];
        bytes[..8].copy_from_slice(&[b0, b1, e0, e1, self.kind, s0, s1, s2]);
        bytes[8..].copy_from_slice(&self.entry.bytes());
        bytes
    }
}

impl Line {
    pub fn write(begin: u16, end: u16, entry: Entry) -> Line {
        Line {
            begin,
            end,
            kind: WRITE,
            spare: [0; 3],
            entry,
        }
    }

    pub fn read(begin: u16, end: u16, entry: Entry) -> Line {
        Line {
            kind: READ,
            ..Line::write(begin, end, entry)
        }
    }

    pub fn is_write(&self) -> bool {
        self.kind == WRITE
    }

    pub fn is_unfinished(&self) -> bool {
        self.end == 0
    }

    fn operation(&self) -> Operation {
        Operation {
            client: 0,
            kind: if self.is_write() {
                Kind::Write
            } else {
                Kind::Read
            },
            began: usize::from(self.begin),
            ended: (!self.is_unfinished()).then_some(usize::from(self.end)),
            entry: Some(self.entry),
        }
    }
}

/// The lines of a log that has whole ones.
pub fn lines(log: &[u8]) -> Vec<Line> {
    let (chunks, _) = log.as_chunks();
    chunks.iter().map(Line::load).collect()
}

pub fn bytes(lines: &[Line]) -> Vec<u8> {
    lines.iter().flat_map(Record::bytes).collect()
}

/// The operation: how many operations the order has, which is written as line
/// numbers from 1, zero after them.
pub fn judge(log: &[u8], order: &mut [u8]) -> Result<usize, Reason> {
    if !log.len().is_multiple_of(LINE_SIZE) {
        return Err(Reason::LogLength);
    }
    let count = log.len() / LINE_SIZE;
    if order.len() != count * PLACE_SIZE {
        return Err(Reason::OrderLength);
    }
    if count > LINES {
        return Err(Reason::Malformed(Flaw::TooManyLines));
    }
    let lines = lines(log);
    well_formed(&lines)?;
    let numbers = decide(&lines).ok_or(Reason::NoOrder)?;
    order.fill(0);
    for (place, number) in order.chunks_exact_mut(PLACE_SIZE).zip(&numbers) {
        place.copy_from_slice(&(*number as u16 + 1).to_le_bytes());
    }
    Ok(numbers.len())
}

/// Each clause of 14 but for the number of lines.
pub fn well_formed(lines: &[Line]) -> Result<(), Reason> {
    let malformed = |flaw| Err(Reason::Malformed(flaw));
    for line in lines {
        if line.begin == 0 {
            return malformed(Flaw::Begin);
        }
        if !matches!(line.kind, WRITE | READ) {
            return malformed(Flaw::Kind);
        }
        if line.spare != [0; 3] || line.entry.spare != [0; 3] {
            return malformed(Flaw::Spare);
        }
        if line.entry.writer > LAST_CLIENT {
            return malformed(Flaw::Writer);
        }
        if line.end != 0 && line.end < line.begin {
            return malformed(Flaw::EndNotAfter);
        }
        if line.is_write() && line.entry.count == 0 {
            return malformed(Flaw::CountZero);
        }
    }
    let begins = lines.iter().map(|line| line.begin);
    let ends = lines.iter().map(|line| line.end).filter(|end| *end != 0);
    if !all_differ(begins.chain(ends).collect()) {
        return malformed(Flaw::NumberTwice);
    }
    let writes = lines.iter().filter(|line| line.is_write());
    let stamps: Vec<Stamp> = writes.map(|line| line.entry.stamp()).collect();
    if !all_differ(stamps) {
        return malformed(Flaw::StampTwice);
    }
    Ok(())
}

fn all_differ<T: Ord>(mut list: Vec<T>) -> bool {
    list.sort();
    list.windows(2).all(|pair| pair[0] != pair[1])
}

/// The lines that an order is about: the completed ones, and the unfinished
/// writes whose entry a completed read returned.
fn ordered(lines: &[Line]) -> Vec<usize> {
    let returned: Vec<Entry> = lines
        .iter()
        .filter(|line| !line.is_write() && !line.is_unfinished())
        .map(|line| line.entry)
        .collect();
    (0..lines.len())
        .filter(|number| {
            let line = &lines[*number];
            !line.is_unfinished() || (line.is_write() && returned.contains(&line.entry))
        })
        .collect()
}

fn operations(lines: &[Line], numbers: &[usize]) -> Vec<Operation> {
    numbers
        .iter()
        .map(|number| lines[*number].operation())
        .collect()
}

/// The order by stamp, writes first, then begin, if it is one. If any order is
/// as asked, this one is.
pub fn decide(lines: &[Line]) -> Option<Order> {
    let numbers = ordered(lines);
    let order = by_stamp(&operations(lines, &numbers))?;
    Some(order.into_iter().map(|place| numbers[place]).collect())
}

/// Stamps never fall along the order.
fn never_falls(operations: &[Operation], order: &[usize]) -> bool {
    let stamp = |number: &usize| operations[*number].entry.map(|entry| entry.stamp());
    order
        .windows(2)
        .all(|pair| stamp(&pair[0]) <= stamp(&pair[1]))
}

/// Whether these lines, in this order, are as asked.
pub fn is_judged(lines: &[Line], order: &[usize]) -> bool {
    let numbers = ordered(lines);
    let places: Option<Order> = order
        .iter()
        .map(|line| numbers.iter().position(|number| number == line))
        .collect();
    let operations = operations(lines, &numbers);
    places.is_some_and(|places| fits(&operations, &places) && never_falls(&operations, &places))
}

/// The question put to every order of every choice of unfinished writes, with
/// nothing left out. Only for a handful of lines.
pub fn by_all_orders(lines: &[Line]) -> bool {
    let (open, ended): (Vec<usize>, Vec<usize>) =
        (0..lines.len()).partition(|number| lines[*number].is_unfinished());
    let writes: Vec<usize> = open
        .into_iter()
        .filter(|number| lines[*number].is_write())
        .collect();
    (0..1 << writes.len()).any(|choice: u32| {
        let chosen = (0..writes.len()).filter(|place| choice >> place & 1 == 1);
        let mut numbers = ended.clone();
        numbers.extend(chosen.map(|place| writes[place]));
        let operations = operations(lines, &numbers);
        any_order(operations.len(), &|order| {
            fits(&operations, order) && never_falls(&operations, order)
        })
    })
}

/// The log of operations that were run. A write that never got a stamp is not
/// logged; an unfinished read is, with the empty entry.
pub fn log_of(run: &[Operation]) -> Vec<Line> {
    run.iter()
        .filter(|operation| operation.kind == Kind::Read || operation.entry.is_some())
        .map(|operation| {
            let begin = operation.began as u16 + 1;
            let end = operation.ended.map_or(0, |place| place as u16 + 1);
            let entry = operation.entry.unwrap_or(Entry::EMPTY);
            match operation.kind {
                Kind::Write => Line::write(begin, end, entry),
                Kind::Read => Line::read(begin, end, entry),
            }
        })
        .collect()
}
