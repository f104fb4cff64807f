//! Records as text and back: the same for drawn files, garbage among them.

mod common;

use std::fs;
use std::path::Path;

use common::{fed, folder, Draws};

/// A record like those of the format, or with bytes of any value.
fn record(draws: &mut Draws, width: usize, kind_at: Option<usize>, kinds: u64) -> Vec<u8> {
    let garbage = draws.below(8) == 0;
    let mut bytes = vec![0; width];
    for byte in &mut bytes {
        *byte = match (garbage, draws.below(4)) {
            (true, _) | (_, 0) => draws.next() as u8,
            (_, 1) => draws.below(17) as u8,
            _ => 0,
        };
    }
    if let (Some(place), false) = (kind_at, garbage) {
        bytes[place] = draws.below(kinds) as u8;
    }
    bytes
}

/// A step with exactly the fields that its kind uses, of any value.
fn step(draws: &mut Draws) -> Vec<u8> {
    let kind = draws.below(10) as u8;
    let used: &[usize] = match kind {
        // One restart of two leaves the pending view as it is.
        9 if draws.below(2) == 0 => &[],
        0 | 7 | 9 => &[1, 3, 8, 9, 10, 11],
        1 => &[1, 8, 9, 10, 11],
        2 | 5 | 8 => &[1],
        3 => &[1, 4, 5],
        4 => &[4, 5],
        _ => &[1, 2, 4, 5, 6, 7],
    };
    let mut bytes = vec![0; 12];
    bytes[0] = kind;
    for place in used {
        bytes[*place] = draws.next() as u8;
    }
    bytes
}

/// A command of the tool, in this process, from file to file.
fn convert(here: &Path, command: &str, flags: &[&str], from: &str, to: &str) -> Vec<u8> {
    let place = |name: &str| here.join(name).to_string_lossy().into_owned();
    let mut words = vec![
        command.to_string(),
        place(from),
        "-o".to_string(),
        place(to),
    ];
    words.extend(flags.iter().map(|flag| flag.to_string()));
    let done = zemawulo_tool::dispatch(&words);
    assert!(done.is_ok(), "{words:?}: {done:?}");
    fs::read(place(to)).unwrap()
}

fn both_ways(here: &Path, flags: &[&str], bytes: &[u8]) -> String {
    fs::write(here.join("bytes"), bytes).unwrap();
    let text = convert(here, "text", flags, "bytes", "text");
    let again = convert(here, "bytes", flags, "text", "again");
    assert_eq!(again, bytes);
    assert_eq!(convert(here, "text", flags, "again", "lines"), text);
    String::from_utf8(text).unwrap()
}

#[test]
fn a_thousand_drawn_journals() {
    let here = folder("exact-journals");
    let mut draws = Draws(1);
    let (mut plain, mut raw) = (0, 0);
    let (mut bare, mut renewed) = (0, 0);
    for _ in 0..1000 {
        let steps = draws.below(40);
        let journal: Vec<u8> = (0..steps)
            .flat_map(|_| match draws.below(2) {
                0 => step(&mut draws),
                _ => record(&mut draws, 12, Some(0), 11),
            })
            .collect();
        let text = both_ways(&here, &[], &journal);
        assert_eq!(text.lines().count() as u64, steps);
        let odd = text.lines().filter(|line| line.starts_with("raw ")).count();
        raw += odd;
        bare += text.lines().filter(|line| *line == "restart").count();
        let with = |line: &&str| line.starts_with("restart members=");
        renewed += text.lines().filter(with).count();
        plain += text.lines().count() - odd;
    }
    // Both forms were met often.
    assert!(plain > 5000 && raw > 5000, "{plain} {raw}");
    assert!(bare > 300 && renewed > 300, "{bare} {renewed}");
}

#[test]
fn drawn_logs_and_answers() {
    let here = folder("exact-lists");
    let mut draws = Draws(2);
    for _ in 0..50 {
        let lines = draws.below(60);
        let log: Vec<u8> = (0..lines)
            .flat_map(|_| record(&mut draws, 20, Some(4), 3))
            .collect();
        both_ways(&here, &["--log"], &log);
        let list: Vec<u8> = (0..lines)
            .flat_map(|_| record(&mut draws, 16, None, 1))
            .collect();
        both_ways(&here, &["--answers"], &list);
    }
}

#[test]
fn loads_have_no_raw_line() {
    let here = folder("exact-loads");
    for seed in 0..20 {
        let seed = seed.to_string();
        let load = fed(&here, &["load", "--seed", &seed, "--steps", "200"], &[]);
        let text = both_ways(&here, &[], &load.out);
        assert!(!text.contains("raw "));
    }
}

#[test]
fn a_journal_through_pipes() {
    let here = folder("exact-pipes");
    let mut draws = Draws(3);
    let journal: Vec<u8> = (0..500)
        .flat_map(|_| record(&mut draws, 12, Some(0), 10))
        .collect();
    let text = fed(&here, &["text", "-"], &journal);
    assert_eq!(text.text().lines().count(), 500);
    assert_eq!(fed(&here, &["bytes", "-"], &text.out).out, journal);
}

#[test]
fn restarts() {
    let here = folder("exact-restarts");
    let record = |r: u8, f: u8, value: u8| [9, r, 0, f, 0, 0, 0, 0, value, 0, 0, 0];
    for (line, bytes, again) in [
        ("restart", record(0, 0, 0), "restart"),
        ("restart members=none f=0", record(0, 0, 0), "restart"),
        (
            "restart members=3,4,5 f=1 r=0",
            record(0, 1, 0b1_1100),
            "restart members=3,4,5 f=1",
        ),
        (
            "restart members=3,4,5 f=0 r=1",
            record(1, 0, 0b1_1100),
            "restart members=3,4,5 f=0 r=1",
        ),
        // The library's to refuse.
        (
            "restart members=none f=1",
            record(0, 1, 0),
            "restart members=none f=1",
        ),
        (
            "restart members=none f=0 r=1",
            record(1, 0, 0),
            "restart members=none f=0 r=1",
        ),
    ] {
        let made = fed(&here, &["bytes", "-"], line.as_bytes());
        assert_eq!(made.out, bytes, "{line}");
        let text = fed(&here, &["text", "-"], &bytes).text();
        assert_eq!(text, format!("{again}\n"));
    }
}

#[test]
fn comments_blank_lines_and_blanks_are_passed_over() {
    let here = folder("exact-comments");
    let text = b"# a note\n\n   write   client=1\tvalue=7  # filed\n\r\nread client=2\r\n# end";
    let bytes = fed(&here, &["bytes", "-"], text);
    assert_eq!(bytes.status, 0, "{}", bytes.err);
    let lines = fed(&here, &["text", "-"], &bytes.out);
    assert_eq!(lines.text(), "write client=1 value=7\nread client=2\n");
}
