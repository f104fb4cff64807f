//! The order that the protocol suggests: by stamp, a write before the reads of
//! it, reads by where they began.

use crate::history::claim::{fits, Order};
use crate::history::operations::{Kind, Operation};

/// The operations by stamp, if that order is as promised.
pub fn by_stamp(operations: &[Operation]) -> Option<Order> {
    let mut order: Order = (0..operations.len()).collect();
    order.sort_by_key(|number| {
        let operation = &operations[*number];
        let stamp = operation.entry.map(|entry| entry.stamp());
        (stamp, operation.kind == Kind::Read, operation.began)
    });
    fits(operations, &order).then_some(order)
}
