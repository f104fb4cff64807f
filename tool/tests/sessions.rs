//! Every session of the program: the tool prints the same lines, from bytes and
//! from text, and a replay ends alike.

mod common;

use std::fs;
use std::path::{Path, PathBuf};

use zemawulo::bytes::STEP;
use zemawulo::{Image, Step, World};

use common::{fed, folder, run, Ended};

fn sessions() -> Vec<(String, PathBuf)> {
    let folder = Path::new(env!("CARGO_MANIFEST_DIR")).join("../sessions");
    let files = fs::read_dir(folder).expect("the sessions").flatten();
    let paths = files.map(|file| file.path());
    let inputs = paths.filter(|path| path.extension().is_some_and(|end| end == "in"));
    let mut named: Vec<(String, PathBuf)> = inputs
        .map(|path| {
            let name = path.file_stem().expect("a name").to_string_lossy();
            (name.into_owned(), path)
        })
        .collect();
    named.sort();
    assert!(named.len() > 40);
    named
}

/// The last number of the line `done`.
fn refusal(out: &str) -> &str {
    out.trim_end().rsplit(' ').next().unwrap_or("")
}

#[test]
fn each_session_prints_its_lines() {
    let here = folder("sessions-run");
    for (name, path) in sessions() {
        let input = path.to_string_lossy();
        let wanted = fs::read_to_string(path.with_extension("out")).expect("its lines");
        let ended = run(&here, &["run", &input]);
        assert_eq!(ended.text(), wanted, "{name}");
        let number = refusal(&wanted);
        assert_eq!(ended.status, i32::from(number != "0"), "{name}");
        if number != "0" {
            assert!(
                ended.err.contains(&format!("refusal {number}: ")),
                "{name}: {}",
                ended.err
            );
        }
    }
}

#[test]
fn each_session_is_the_same_as_text() {
    let here = folder("sessions-text");
    for (name, path) in sessions() {
        let bytes = fs::read(&path).expect("its input");
        let text = run(&here, &["text", &path.to_string_lossy()]);
        if bytes.len() % 12 != 0 {
            assert_eq!((text.status, text.out.len()), (1, 0), "{name}");
            continue;
        }
        assert_eq!(text.status, 0, "{name}");
        assert_eq!(fed(&here, &["bytes", "-"], &text.out).out, bytes, "{name}");
        let wanted = fs::read_to_string(path.with_extension("out")).expect("its lines");
        assert_eq!(
            fed(&here, &["run", "--text", "-"], &text.out).text(),
            wanted,
            "{name}"
        );
    }
}

/// The fresh world of a first record, as an image.
fn fresh(here: &Path, first: &[u8]) {
    let line = fed(here, &["text", "-"], first).text();
    let words: Vec<&str> = line.split_whitespace().collect();
    let flags = words.iter().skip(1).map(|word| format!("--{word}"));
    let flags: Vec<String> = flags.collect();
    let flags = flags.iter().map(String::as_str);
    let words: Vec<&str> = ["fresh", "-o", "fresh"].into_iter().chain(flags).collect();
    let ended = run(here, &words);
    assert_eq!(ended.status, 0);
}

/// Ended alike: with the same last line, error and image.
fn alike(here: &Path, name: &str, one: (&Ended, &str), two: (&Ended, &str)) {
    let image = |file: &str| fs::read(here.join(file)).expect("an image");
    let end = |ended: &Ended| (ended.status, ended.err.clone());
    assert_eq!(end(one.0), end(two.0), "{name}");
    assert!(image(one.1) == image(two.1), "{name}");
}

#[test]
fn a_replay_ends_as_the_run_does() {
    let here = folder("sessions-replay");
    let names = [
        "worked",
        "full-year",
        "stale-read",
        "many-views",
        "full-table",
    ];
    for (name, path) in sessions() {
        if !names.contains(&name.as_str()) {
            continue;
        }
        let input = fs::read(&path).expect("its input");
        let (first, journal) = input.split_at(12);
        fresh(&here, first);
        fs::write(here.join("journal"), journal).expect("a journal");
        let replay = |image: &str, file: &str, out: &str, done: usize| {
            let done = format!("--done={done}");
            let words = ["replay", image, file, &done, "-o", out, "--keep"];
            fed(&here, &words, journal)
        };
        let input = path.to_string_lossy();
        let whole = run(&here, &["run", &input, "-o", "one", "--keep"]);
        let again = replay("fresh", "journal", "two", 0);
        let last = |ended: &Ended| ended.text().lines().last().map(str::to_string);
        assert_eq!(last(&again), last(&whole), "{name}");
        alike(&here, &name, (&whole, "one"), (&again, "two"));
        alike(
            &here,
            &name,
            (&whole, "one"),
            (&replay("fresh", "-", "three", 0), "three"),
        );
        // From the middle on.
        let done = journal.len() / 24;
        fs::write(here.join("half"), &journal[..done * 12]).expect("a journal");
        assert_eq!(replay("fresh", "half", "part", 0).status, 0, "{name}");
        let rest = replay("part", "journal", "four", done);
        alike(&here, &name, (&whole, "one"), (&rest, "four"));
    }
}

/// The first accepted step after which the premise does not hold, by the full
/// count after each.
fn counted(image: &mut Image, journal: &[u8]) -> Option<usize> {
    let mut first = None;
    for (place, record) in journal.chunks_exact(STEP).enumerate() {
        let step = Step::from_bytes(record.try_into().expect("a step"));
        if image.step(step).is_err() {
            break;
        }
        let holds = image.premise().expect("an image");
        first = first.or((!holds).then_some(place + 1));
    }
    first
}

#[test]
fn watch_names_the_step_that_a_count_finds() {
    let here = folder("sessions-watch");
    let mut broken = 0;
    for (name, path) in sessions() {
        let input = fs::read(&path).expect("its input");
        let first = input.get(..STEP).and_then(|first| first.try_into().ok());
        let world = first.and_then(World::from_bytes).map(Image::fresh);
        let ended = run(&here, &["watch", &path.to_string_lossy()]);
        let Some(Ok(mut image)) = world else {
            assert_eq!((ended.status, ended.text().as_str()), (1, ""), "{name}");
            continue;
        };
        if input.len() % STEP != 0 {
            assert!(ended.text().ends_with("\ndone 0 1\n"), "{name}");
            continue;
        }
        let step = counted(&mut image, &input[STEP..]);
        broken += usize::from(step.is_some());
        let line = match step {
            Some(step) => format!("the premise does not hold from step {step} on"),
            None => "the premise holds after every step".to_string(),
        };
        let wanted = fs::read_to_string(path.with_extension("out")).expect("its lines");
        let last = wanted.lines().last().unwrap_or("");
        assert_eq!(ended.text(), format!("{line}\n{last}\n"), "{name}");
    }
    assert!(broken > 0);
}
