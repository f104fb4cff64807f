//! Prints what a filing and a read cost for every permitted read size.

use reference::costs::table;

fn main() {
    println!("{}", table(32, 5));
    print!("{}", table(10, 1));
}
