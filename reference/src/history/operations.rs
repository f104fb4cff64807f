//! The operations of a journal, as they follow from its steps alone.

use crate::entry::{Entry, Stamp};
use crate::journal::Journal;
use crate::layout::CLIENTS;
use crate::record::{step_kind, Step};
use crate::rules::Rules;
use crate::step::{step, Deed};
use crate::world::{operation_kind, phase, World};

#[derive(Clone, Copy, Debug, PartialEq, Eq, Hash)]
pub enum Kind {
    Write,
    Read,
}

/// One operation: its client, the places in the journal where it began and
/// ended, and its entry. Without an end it is unfinished, given up or not; an
/// unfinished write has an entry once its WRITE was sent.
#[derive(Clone, Debug, PartialEq, Eq)]
pub struct Operation {
    pub client: u8,
    pub kind: Kind,
    pub began: usize,
    pub ended: Option<usize>,
    pub entry: Option<Entry>,
}

impl Operation {
    /// Whether this one ended before the other began.
    pub fn precedes(&self, other: &Operation) -> bool {
        self.ended.is_some_and(|ended| ended < other.began)
    }

    pub fn is_completed(&self) -> bool {
        self.ended.is_some()
    }
}

/// A journal that was run: the world after it, and its operations in the order
/// in which they began.
pub struct Run {
    pub world: World,
    pub operations: Vec<Operation>,
}

/// Runs the journal step by step from its fresh world. A refused step takes a
/// place and does nothing, whatever its bytes.
pub fn run<R: Rules>(journal: &Journal) -> Run {
    let mut world = World::fresh(journal.members, journal.f, journal.r)
        .expect("a journal begins with a fresh world");
    let mut operations: Vec<Operation> = Vec::new();
    let mut open: [Option<usize>; CLIENTS] = [None; CLIENTS];
    for (place, bytes) in journal.steps.iter().enumerate() {
        let Ok(bytes) = bytes.as_slice().try_into() else {
            continue;
        };
        let record = Step::load(bytes);
        let left = left_open(&world, &record, &open, &operations);
        let Ok(done) = step::<R>(&mut world, &record) else {
            continue;
        };
        if done.deed == Deed::GaveUp {
            let number = open[usize::from(record.who) - 1]
                .take()
                .expect("only an open operation is given up");
            operations[number].entry = left;
        }
        if let Some(kind) = begins(record.kind) {
            open[usize::from(record.who) - 1] = Some(operations.len());
            operations.push(Operation {
                client: record.who,
                kind,
                began: place,
                ended: None,
                entry: None,
            });
        }
        if done.completed != 0 {
            let number = open[usize::from(done.completed) - 1]
                .take()
                .expect("only an open operation is completed");
            operations[number].ended = Some(place);
            operations[number].entry = Some(world.client(done.completed).entry);
        }
    }
    for number in open.into_iter().flatten() {
        operations[number].entry = written(&world, &operations[number]);
    }
    Run { world, operations }
}

/// The entry that the operation a step gives up has at that moment.
fn left_open(
    world: &World,
    record: &Step,
    open: &[Option<usize>; CLIENTS],
    operations: &[Operation],
) -> Option<Entry> {
    if record.kind != step_kind::GIVE_UP || record.check().is_err() {
        return None;
    }
    let number = open[usize::from(record.who) - 1]?;
    written(world, &operations[number])
}

fn begins(kind: u8) -> Option<Kind> {
    match kind {
        step_kind::WRITE => Some(Kind::Write),
        step_kind::READ => Some(Kind::Read),
        _ => None,
    }
}

/// The entry of a write that is open: that of its WRITE, if one was sent.
fn written(world: &World, operation: &Operation) -> Option<Entry> {
    let client = world.client(operation.client);
    if client.phase != phase::WRITING || client.kind != operation_kind::WRITE {
        return None;
    }
    world.message(client.request).map(|message| message.entry)
}

/// Whether no two write operations of a run have one stamp, those included that
/// nobody returned.
pub fn stamps_differ(operations: &[Operation]) -> bool {
    let mut stamps: Vec<Stamp> = operations
        .iter()
        .filter(|operation| operation.kind == Kind::Write)
        .filter_map(|operation| operation.entry.map(|entry| entry.stamp()))
        .collect();
    stamps.sort();
    stamps.windows(2).all(|pair| pair[0] != pair[1])
}

/// The operations that the order is about, each with its entry: all completed
/// ones, and the unfinished writes whose entry a completed read returned.
pub fn ordered(operations: &[Operation]) -> Vec<Operation> {
    let returned: Vec<Entry> = operations
        .iter()
        .filter(|operation| operation.kind == Kind::Read && operation.is_completed())
        .filter_map(|operation| operation.entry)
        .collect();
    operations
        .iter()
        .filter(|operation| {
            operation.is_completed()
                || (operation.kind == Kind::Write
                    && operation
                        .entry
                        .is_some_and(|entry| returned.contains(&entry)))
        })
        .cloned()
        .collect()
}
