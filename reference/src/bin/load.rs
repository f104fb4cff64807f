//! Writes the load of a seed and a number of steps to standard output, so that
//! two people can compare files.

use std::io::{self, Write};
use std::process::ExitCode;

use reference::layout::STEP_SIZE;
use reference::load::load;

fn main() -> ExitCode {
    let words: Vec<String> = std::env::args().skip(1).collect();
    let numbers: Result<Vec<u32>, _> = words.iter().map(|word| word.parse()).collect();
    let Ok([seed, steps]) = numbers.as_deref() else {
        eprintln!("usage: load SEED STEPS");
        return ExitCode::from(2);
    };
    let mut journal = vec![0; STEP_SIZE * *steps as usize];
    load(&mut journal, *seed, *steps).expect("the buffer has the length of the steps");
    match io::stdout().write_all(&journal) {
        Ok(()) => ExitCode::SUCCESS,
        Err(_) => ExitCode::FAILURE,
    }
}
