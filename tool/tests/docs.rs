//! Every example in the pages for users is run and compared. A fenced block
//! ```` ```text NAME ```` is a file; in a block ```` ```console ```` each line
//! behind `$` is run by a shell in a folder with these files, and what it prints
//! (standard output, then standard error, then a status that is not 0) is the
//! lines below it. With ZEMAWULO_DOCS=write the pages get what is printed now.

mod common;

use std::fs;
use std::path::{Path, PathBuf};
use std::process::Command;

use common::folder;
use zemawulo::Refusal;

fn root() -> PathBuf {
    Path::new(env!("CARGO_MANIFEST_DIR")).join("..")
}

/// What a shell prints, the command being at hand.
fn printed(here: &Path, line: &str) -> String {
    let bin = Path::new(env!("CARGO_BIN_EXE_zemawulo"));
    let path = std::env::var("PATH").unwrap_or_default();
    let path = format!("{}:{path}", bin.parent().unwrap().display());
    let ended = Command::new("sh")
        .args(["-c", line])
        .current_dir(here)
        .env("PATH", path)
        .output()
        .unwrap();
    let mut text = String::from_utf8_lossy(&ended.stdout).into_owned();
    text += &String::from_utf8_lossy(&ended.stderr);
    match ended.status.code() {
        Some(0) => {}
        status => text += &format!("[exit status {}]\n", status.unwrap_or(-1)),
    }
    text
}

/// A page with its examples run again, and how many they are.
fn run_again(page: &str, name: &str) -> (String, usize) {
    let here = folder(&format!("docs-{name}"));
    for at in ["sessions", "docs"] {
        let place = root().join(at).canonicalize().unwrap();
        std::os::unix::fs::symlink(place, here.join(at)).unwrap();
    }
    let (mut text, mut commands) = (String::new(), 0);
    let mut lines = page.lines().peekable();
    while let Some(line) = lines.next() {
        text += &format!("{line}\n");
        if let Some(file) = line.strip_prefix("```text ") {
            let mut block = String::new();
            while let Some(line) = lines.next_if(|line| *line != "```") {
                block += &format!("{line}\n");
            }
            fs::write(here.join(file), &block).unwrap();
            kept(file, &block);
            text += &block;
        }
        if line == "```console" {
            while let Some(line) = lines.next_if(|line| *line != "```") {
                if let Some(command) = line.strip_prefix("$ ") {
                    text += &format!("{line}\n{}", printed(&here, command));
                    commands += 1;
                }
            }
        }
    }
    (text, commands)
}

/// A journal that is kept beside the pages is the same there.
fn kept(file: &str, block: &str) {
    let place = root().join("docs/journals").join(file);
    if place.exists() {
        assert_eq!(
            fs::read_to_string(&place).unwrap(),
            block,
            "docs/journals/{file}"
        );
    }
}

#[test]
fn every_example_prints_what_its_page_says() {
    for name in [
        "README.md",
        "docs/RULES.md",
        "docs/REFUSALS.md",
        "docs/BENCH.md",
        "docs/GLOSSARY.md",
    ] {
        let place = root().join(name);
        let page = fs::read_to_string(&place).unwrap();
        let (again, commands) = run_again(&page, &name.replace('/', "-"));
        assert!(commands > 0 || name == "docs/GLOSSARY.md", "{name}");
        if std::env::var("ZEMAWULO_DOCS").as_deref() == Ok("write") {
            fs::write(&place, &again).unwrap();
        }
        for (number, (now, then)) in again.lines().zip(page.lines()).enumerate() {
            assert_eq!(now, then, "{name}:{}", number + 1);
        }
        assert_eq!(again, page, "{name}");
    }
}

/// The table of refusals has each one's number, name and words.
#[test]
fn the_table_of_refusals_is_the_crate_s() {
    let page = fs::read_to_string(root().join("docs/REFUSALS.md")).unwrap();
    let header = fs::read_to_string(root().join("include/zemawulo.h")).unwrap();
    for refusal in Refusal::all() {
        let (number, words) = (refusal.number(), refusal.words());
        let row = page
            .lines()
            .find(|line| line.starts_with(&format!("| {number} | ")));
        let row = row.unwrap_or_else(|| panic!("{number} has no row"));
        assert!(row.contains(words), "{row}: {words}");
        assert!(row.contains(&format!("`{refusal:?}`")), "{row}");
        let name = row
            .split("`ZW_")
            .nth(1)
            .and_then(|rest| rest.split('`').next());
        let line = format!("ZW_{} = {number}", name.unwrap_or("?"));
        assert!(header.contains(&line), "{line}");
        assert!(
            page.contains(&format!("\n### {number} ")),
            "{number} has no example"
        );
    }
}

/// Each definition that the pages name is there: `Sizes.quorum` is `quorum` in
/// Sizes.antt of the rules, `judging/Verdict.promised` one of another crate. A
/// definition stands in specs/, a theorem there or in proofs/.
#[test]
fn every_definition_named_is_there() {
    for name in ["docs/RULES.md", "docs/GLOSSARY.md"] {
        let page = fs::read_to_string(root().join(name)).unwrap();
        let mut found = 0;
        // Definitions stand in tables alone.
        let rows: Vec<&str> = page.lines().filter(|line| line.starts_with("| ")).collect();
        for word in rows.join("\n").split('`').skip(1).step_by(2) {
            let Some((file, definition)) = word.split_once('.') else {
                continue;
            };
            let (of, file) = file.split_once('/').unwrap_or(("protocol", file));
            let read = |part: &str| {
                let place = root().join(format!("crates/{of}/{part}/{file}.antt"));
                fs::read_to_string(place).unwrap_or_default()
            };
            let theorem = |line: &&str| {
                let of_form = |form| line.trim_start().starts_with(form);
                of_form("pub ") && !of_form("pub record ") && !of_form("pub data ")
            };
            let (specs, proofs) = (read("specs"), read("proofs"));
            let mut lines = specs.lines().chain(proofs.lines().filter(theorem));
            let named = |line: &str| {
                let mut words = line.split_whitespace();
                words.any(|word| word == "pub") && {
                    let first = words.next().unwrap_or("");
                    let second = words.next().unwrap_or("");
                    first == definition
                        || ["record", "data"].contains(&first) && second == definition
                }
            };
            assert!(lines.any(named), "{name}: {word} is not there");
            found += 1;
        }
        assert!(found > 10, "{name}: {found}");
    }
}
