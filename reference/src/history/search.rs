//! Tries the orders one by one: to check, on small histories, those who find
//! an order by thinking.

use crate::entry::Entry;
use crate::history::claim::{fits, Order};
use crate::history::operations::{Kind, Operation};

/// An order as promised, found by trying every order that keeps time and in
/// which each read returns the last write before it. Meant for few operations.
pub fn by_trying(operations: &[Operation]) -> Option<Order> {
    let mut order = Order::new();
    extend(operations, Some(Entry::EMPTY), &mut order).then_some(order)
}

fn extend(operations: &[Operation], last: Option<Entry>, order: &mut Order) -> bool {
    if order.len() == operations.len() {
        return fits(operations, order);
    }
    for number in 0..operations.len() {
        if order.contains(&number) || !may_follow(operations, number, order) {
            continue;
        }
        let operation = &operations[number];
        if operation.kind == Kind::Read && operation.entry != last {
            continue;
        }
        let now_last = match operation.kind {
            Kind::Write => operation.entry,
            Kind::Read => last,
        };
        order.push(number);
        if extend(operations, now_last, order) {
            return true;
        }
        order.pop();
    }
    false
}

/// Whether all that ended before this one began stand in the order already.
fn may_follow(operations: &[Operation], number: usize, order: &Order) -> bool {
    (0..operations.len())
        .filter(|other| operations[*other].precedes(&operations[number]))
        .all(|other| order.contains(&other))
}

/// The same question put to every order there is, with nothing left out. Only
/// for a handful of operations.
pub fn by_all_orders(operations: &[Operation]) -> bool {
    any_order(operations.len(), &|order| fits(operations, order))
}

/// Whether any order of so many operations is wanted.
pub fn any_order(count: usize, wanted: &impl Fn(&[usize]) -> bool) -> bool {
    let mut order: Order = (0..count).collect();
    permute(&mut order, 0, wanted)
}

fn permute(order: &mut Order, fixed: usize, wanted: &impl Fn(&[usize]) -> bool) -> bool {
    if fixed == order.len() {
        return wanted(order);
    }
    for place in fixed..order.len() {
        order.swap(fixed, place);
        let found = permute(order, fixed + 1, wanted);
        order.swap(fixed, place);
        if found {
            return true;
        }
    }
    false
}
