//! The benchmark's table: times of the reference and of the proved library, and
//! the library's as a part of the reference's (below 1: the library is faster).

use reference::bench::{rows, table, ROUNDS};
use reference::exports::Exports;

fn main() {
    println!("Median of {ROUNDS} rounds, both sides by turns; buffers held other worlds before.");
    println!("The readable test alone is measured by the premise report, which contains it.");
    println!("The ratio is the library's time as a part of the reference's, median by round.");
    println!();
    print!("{}", table(&rows(&Exports)));
}
