//! Compares the proved library with the reference: at least 20,000 single steps
//! and 300 journals, or as many steps as the argument says and journals in
//! proportion. A second argument is the seed.

use std::process::ExitCode;

use reference::compare::cases::{run_all, short_journals, JOURNALS, SHORTENED, STEPS};
use reference::compare::check::Comparison;
use reference::compare::report::{is_good, report};
use reference::exports::Exports;

fn main() -> ExitCode {
    let words: Vec<String> = std::env::args().skip(1).collect();
    let numbers: Result<Vec<u64>, _> = words.iter().map(|word| word.parse()).collect();
    let (steps, seed) = match numbers.as_deref() {
        Ok([]) => (STEPS, 1),
        Ok([steps]) => (*steps as usize, 1),
        Ok([steps, seed]) => (*steps as usize, *seed),
        _ => {
            eprintln!("usage: compare [STEPS [SEED]]");
            return ExitCode::from(2);
        }
    };
    let steps = steps.max(STEPS);
    let journals = JOURNALS * steps / STEPS;
    let mut comparison = Comparison::new(&Exports);
    run_all(&mut comparison, steps, journals, seed);
    short_journals(&mut comparison, SHORTENED * steps / STEPS, seed);
    print!("{}", report(&comparison));
    ExitCode::from(u8::from(!is_good(&comparison)))
}
