//! Records as lines of text and back, exact both ways: `write client=1 value=7`.

mod forms;
mod parse;
mod print;

pub use forms::{Format, ANSWERS, JOURNAL, LOG};
pub use parse::{members, parse};
pub use print::print;
