//! A journal examined: does the premise hold after it, and have its operations
//! an order?

use crate::history::blocks::find;
use crate::history::operations::{ordered, run, stamps_differ, Operation};
use crate::history::search::by_trying;
use crate::history::sorted::by_stamp;
use crate::journal::Journal;
use crate::premise::premise;
use crate::rules::Rules;

/// Histories up to this many operations are also tried order by order.
pub const FEW: usize = 8;

#[derive(Clone, Debug)]
pub struct Verdict {
    /// Whether the premise holds after the journal.
    pub premise: bool,
    /// The operations that the order is about.
    pub operations: Vec<Operation>,
    /// Whether no stamp was given to two writes.
    pub never_again: bool,
    /// Whether an order as promised exists.
    pub order: bool,
    /// Whether the order by stamp is one.
    pub by_stamp: bool,
    /// Whether trying the orders one by one came to the same; none if there
    /// were too many.
    pub tried: Option<bool>,
}

impl Verdict {
    /// The claim fails: the premise holds, and no order exists.
    pub fn is_violation(&self) -> bool {
        self.premise && !self.order
    }

    /// A stamp was given a second time, or the claim fails.
    pub fn is_wrong(&self) -> bool {
        !self.never_again || self.is_violation()
    }

    /// The ways to find an order contradict each other.
    pub fn is_at_odds(&self) -> bool {
        (self.by_stamp && !self.order) || self.tried == Some(false)
    }
}

/// Runs the journal under these rules and looks at what came out.
pub fn examine<R: Rules>(journal: &Journal) -> Verdict {
    let run = run::<R>(journal);
    let never_again = stamps_differ(&run.operations);
    let operations = ordered(&run.operations);
    let order = find(&operations).is_some();
    let by_stamp = by_stamp(&operations).is_some();
    let tried = (operations.len() <= FEW).then(|| by_trying(&operations).is_some() == order);
    Verdict {
        premise: premise::<R>(&run.world),
        never_again,
        operations,
        order,
        by_stamp,
        tried,
    }
}
