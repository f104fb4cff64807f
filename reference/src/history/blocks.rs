//! Finds an order or shows that none exists, without looking at stamps.
//!
//! In an order as promised, all reads of one entry stand behind one write of
//! that entry, or before all writes if the entry is empty, with no write in
//! between. So the order is a row of blocks, each a write and its reads, behind
//! a first block of reads alone. Blocks are bound by time: one goes before
//! another if it has an operation that ended before one of the other's began.
//! A row exists exactly if these bonds have no circle.

use crate::entry::Entry;
use crate::history::claim::{fits, Order};
use crate::history::operations::{Kind, Operation};

/// A write and the reads of it; the first block has no write.
#[derive(Clone, Debug)]
struct Block {
    write: Option<usize>,
    reads: Vec<usize>,
}

/// An order as promised, or none if there is none.
pub fn find(operations: &[Operation]) -> Option<Order> {
    let mut entries: Vec<Entry> = Vec::new();
    for operation in operations.iter().filter(|o| o.kind == Kind::Read) {
        let entry = operation.entry?;
        if !entries.contains(&entry) {
            entries.push(entry);
        }
    }
    choose(operations, &entries, &mut Vec::new())
}

/// Where the reads of an entry may stand: behind the write of that number, or
/// in the first block.
type Place = Option<usize>;

/// Chooses a place for the reads of each entry in turn. Where two writes have
/// one entry, each is tried.
fn choose(operations: &[Operation], entries: &[Entry], chosen: &mut Vec<Place>) -> Option<Order> {
    let Some(entry) = entries.get(chosen.len()) else {
        return row(operations, entries, chosen);
    };
    for place in places(operations, entry) {
        chosen.push(place);
        if let Some(order) = choose(operations, entries, chosen) {
            return Some(order);
        }
        chosen.pop();
    }
    None
}

fn places(operations: &[Operation], entry: &Entry) -> Vec<Place> {
    let first = entry.is_empty().then_some(None);
    let writes = (0..operations.len()).filter(|number| {
        operations[*number].kind == Kind::Write && operations[*number].entry == Some(*entry)
    });
    first.into_iter().chain(writes.map(Some)).collect()
}

/// The blocks for these places, in a row if they have one.
fn row(operations: &[Operation], entries: &[Entry], chosen: &[Place]) -> Option<Order> {
    let mut blocks = blocks(operations, entries, chosen);
    let first = blocks.remove(0);
    if blocks.iter().any(|block| bound(operations, block, &first)) {
        return None;
    }
    let mut order = first.in_order(operations)?;
    while !blocks.is_empty() {
        let next = (0..blocks.len()).find(|place| is_free(operations, &blocks, *place))?;
        order.extend(blocks.remove(next).in_order(operations)?);
    }
    assert!(
        fits(operations, &order),
        "a row of blocks is an order as promised"
    );
    Some(order)
}

fn blocks(operations: &[Operation], entries: &[Entry], chosen: &[Place]) -> Vec<Block> {
    let writes = (0..operations.len()).filter(|n| operations[*n].kind == Kind::Write);
    let mut blocks: Vec<Block> = [None]
        .into_iter()
        .chain(writes.map(Some))
        .map(|write| Block {
            write,
            reads: Vec::new(),
        })
        .collect();
    for (entry, place) in entries.iter().zip(chosen) {
        let reads = (0..operations.len()).filter(|number| {
            operations[*number].kind == Kind::Read && operations[*number].entry == Some(*entry)
        });
        for block in blocks.iter_mut().filter(|block| block.write == *place) {
            block.reads.extend(reads.clone());
        }
    }
    blocks
}

/// Whether time asks that the one block goes before the other.
fn bound(operations: &[Operation], one: &Block, other: &Block) -> bool {
    one.members().any(|a| {
        other
            .members()
            .any(|b| operations[a].precedes(&operations[b]))
    })
}

/// Whether no other block must go before the one at this place.
fn is_free(operations: &[Operation], blocks: &[Block], place: usize) -> bool {
    blocks
        .iter()
        .enumerate()
        .all(|(other, block)| other == place || !bound(operations, block, &blocks[place]))
}

impl Block {
    fn members(&self) -> impl Iterator<Item = usize> + '_ {
        self.write.into_iter().chain(self.reads.iter().copied())
    }

    /// The write, then the reads by where they began; none if a read ended
    /// before its write began.
    fn in_order(&self, operations: &[Operation]) -> Option<Order> {
        if let Some(write) = self.write {
            if self
                .reads
                .iter()
                .any(|read| operations[*read].precedes(&operations[write]))
            {
                return None;
            }
        }
        let mut reads = self.reads.clone();
        reads.sort_by_key(|read| operations[*read].began);
        Some(self.write.into_iter().chain(reads).collect())
    }
}
