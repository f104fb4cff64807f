//! Writes the sessions of the program into a folder: for each its input,
//! `NAME.in`, and what the program prints, `NAME.out`.

use std::fs;
use std::io;
use std::path::Path;
use std::process::ExitCode;

use reference::sessions::{drawn_sessions, sessions, Session};

fn main() -> ExitCode {
    let words: Vec<String> = std::env::args().skip(1).collect();
    let (folder, drawn) = match words.as_slice() {
        [folder] => (folder, Some((0, 0))),
        [folder, seed, count] => (folder, seed.parse().ok().zip(count.parse().ok())),
        _ => return usage(),
    };
    let Some((seed, count)) = drawn else {
        return usage();
    };
    let mut all = sessions();
    all.extend(drawn_sessions(seed, count));
    for session in &all {
        if let Err(error) = write(Path::new(folder), session) {
            eprintln!("{}: {error}", session.name);
            return ExitCode::FAILURE;
        }
        let output = session.output();
        let last = output.lines().last().unwrap_or_default();
        println!(
            "{:26} {:6} bytes, {:3} operations, {last}",
            session.name,
            session.input.len(),
            output.lines().count() - 1,
        );
    }
    ExitCode::SUCCESS
}

fn usage() -> ExitCode {
    eprintln!("usage: journals FOLDER [SEED COUNT]");
    ExitCode::from(2)
}

fn write(folder: &Path, session: &Session) -> io::Result<()> {
    fs::create_dir_all(folder)?;
    fs::write(folder.join(format!("{}.in", session.name)), &session.input)?;
    fs::write(
        folder.join(format!("{}.out", session.name)),
        session.output(),
    )
}
