//! What a journal's operations were, and whether they have the order that is
//! promised: one in which a read returns the last write before it.

pub mod blocks;
pub mod claim;
pub mod ideas;
pub mod operations;
pub mod search;
pub mod sorted;
pub mod verdict;
