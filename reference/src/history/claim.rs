//! The claim about one given order, sentence by sentence.

use crate::entry::Entry;
use crate::history::operations::{Kind, Operation};

/// An order of operations: their places in the list, first to last.
pub type Order = Vec<usize>;

/// Whether this order is as promised.
pub fn fits(operations: &[Operation], order: &[usize]) -> bool {
    is_order(operations, order)
        && keeps_time(operations, order)
        && reads_last_write(operations, order)
        && equal_exactly_without_write_between(operations, order)
}

/// Every operation stands in the order one time.
fn is_order(operations: &[Operation], order: &[usize]) -> bool {
    let mut places = order.to_vec();
    places.sort_unstable();
    places.into_iter().eq(0..operations.len())
}

/// An operation that ended before another began comes first.
fn keeps_time(operations: &[Operation], order: &[usize]) -> bool {
    order.iter().enumerate().all(|(place, earlier)| {
        order[place + 1..]
            .iter()
            .all(|later| !operations[*later].precedes(&operations[*earlier]))
    })
}

/// A read returns the entry of the last write before it, or the empty entry.
fn reads_last_write(operations: &[Operation], order: &[usize]) -> bool {
    let mut last = Some(Entry::EMPTY);
    order.iter().all(|number| {
        let operation = &operations[*number];
        match operation.kind {
            Kind::Write => {
                last = operation.entry;
                true
            }
            Kind::Read => operation.entry == last,
        }
    })
}

/// Two reads are equal exactly when no write stands between them.
fn equal_exactly_without_write_between(operations: &[Operation], order: &[usize]) -> bool {
    order.iter().enumerate().all(|(place, first)| {
        let mut write_between = false;
        order[place + 1..].iter().all(|second| {
            if operations[*second].kind == Kind::Write {
                write_between = true;
                return true;
            }
            let equal = operations[*first].entry == operations[*second].entry;
            operations[*first].kind == Kind::Write || equal != write_between
        })
    })
}
