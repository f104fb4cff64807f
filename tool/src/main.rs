//! The command line of `zemawulo`.

use std::env;
use std::process::ExitCode;

fn main() -> ExitCode {
    let given: Vec<String> = env::args_os()
        .skip(1)
        .map(|word| word.to_string_lossy().into_owned())
        .collect();
    match zemawulo_tool::dispatch(&given) {
        Ok(()) => ExitCode::SUCCESS,
        Err(failure) => {
            if let Some(words) = failure.words() {
                eprintln!("zemawulo: {words}");
            }
            ExitCode::from(failure.status())
        }
    }
}
