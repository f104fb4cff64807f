//! The proved library against the reference: the same calls to both, on the
//! same bytes, and the same answers and bytes after.

pub mod cases;
pub mod check;
pub mod counts;
pub mod library;
pub mod report;
pub mod restarts;
