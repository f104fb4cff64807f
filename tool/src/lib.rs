//! The command `zemawulo`. Every answer comes from the proved library; what is
//! here reads and writes files, and puts names to bytes.

mod commands;
mod failure;
mod files;
mod options;
mod page;
mod progress;
mod records;
mod text;

use commands::{Command, COMMANDS};
pub use failure::Failure;
use options::Options;

/// Does what a command line asks for, its words without the name of the command.
pub fn dispatch(given: &[String]) -> Result<(), Failure> {
    let Some((first, rest)) = given.split_first() else {
        return Err(Failure::Usage(overview()));
    };
    match first.as_str() {
        "--help" | "-h" | "help" => files::say(&overview()),
        "--version" | "version" => files::say(concat!("zemawulo ", env!("CARGO_PKG_VERSION"))),
        name => match COMMANDS.iter().find(|command| command.name == name) {
            Some(command) => perform(command, rest),
            None => Err(Failure::Usage(format!(
                "there is no command `{name}`; `zemawulo --help` lists them"
            ))),
        },
    }
}

fn perform(command: &Command, rest: &[String]) -> Result<(), Failure> {
    if rest.iter().any(|word| word == "--help" || word == "-h") {
        return files::say(command.help.trim());
    }
    let options = Options::read(command, rest)?;
    (command.run)(&options)
}

fn overview() -> String {
    let mut lines = vec![
        "usage: zemawulo COMMAND ...  (zemawulo COMMAND --help says more)".to_string(),
        String::new(),
    ];
    for command in COMMANDS {
        lines.push(format!("  {:<8}  {}", command.name, command.summary));
    }
    lines.push(String::new());
    lines.push("Exit status: 0 done, 1 refused by the library, 2 bad usage or input.".to_string());
    lines.join("\n")
}
