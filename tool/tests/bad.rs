//! Bad input: a clear error, exit status 1 or 2, and nothing written.

mod common;

use std::fs::{self, File};
use std::path::Path;
use std::process::Command;

use common::{fed, folder, names, run, Ended};

/// Refused or not understood: the status, words that the error has, no output
/// but the line of a count, and no new file.
fn bad(here: &Path, ended: &Ended, status: i32, words: &str) {
    let new = names(here).into_iter().any(|name| name.starts_with("new"));
    let quiet = ended.out.is_empty() || ended.out.starts_with(b"done 0 ");
    assert_eq!(ended.status, status, "{ended:?}");
    assert!(ended.err.starts_with("zemawulo: "), "{ended:?}");
    assert!(ended.err.contains(words), "{words}: {ended:?}");
    assert!(quiet && !new, "{ended:?}");
}

/// A command line that the library refuses, each with words of its error.
fn refused(here: &Path, cases: &[(&str, &str)], input: &[u8]) {
    for (line, words) in cases {
        let line: Vec<&str> = line.split_whitespace().collect();
        bad(here, &fed(here, &line, input), 1, words);
    }
}

fn fresh(here: &Path) {
    let fresh = ["fresh", "--members", "1", "--f", "0", "-o", "image"];
    assert_eq!(run(here, &fresh).status, 0);
}

#[test]
fn empty_files() {
    let here = folder("bad-empty");
    fs::write(here.join("empty"), []).unwrap();
    let cases = [
        ("run empty -o new --keep", "refusal 1: "),
        ("replay empty empty -o new", "refusal 1: "),
        ("show empty", "refusal 1: "),
        ("page empty -o new", "refusal 1: "),
        ("shorten empty -o new", "refusal 1: "),
        ("vouch empty --n 4 --b 0", "refusal 14: "),
    ];
    refused(&here, &cases, &[]);
    // A log, a journal and a text of nothing are as good as any.
    assert_eq!(run(&here, &["judge", "empty"]).text(), "done 0 0\n");
    assert_eq!(run(&here, &["text", "empty"]).status, 0);
    assert_eq!(run(&here, &["bytes", "empty"]).status, 0);
}

const WORLD: [u8; 12] = [0, 0, 0, 0, 0, 0, 0, 0, 1, 0, 0, 0];
const READ: [u8; 12] = [2, 2, 0, 0, 0, 0, 0, 0, 0, 0, 0, 0];

#[test]
fn cut_records() {
    let here = folder("bad-cut");
    let cut = [&WORLD[..], &READ, &READ[..7]].concat();
    fs::write(here.join("cut"), &cut).unwrap();
    fs::write(here.join("short"), &READ[..7]).unwrap();
    fresh(&here);
    let cases = [
        ("run short", "the first record, 7 of 12 bytes: refusal 1: "),
        (
            "replay image cut -o new --keep",
            "ends within a record: refusal 1: ",
        ),
        ("text cut -o new", "7 of 12 bytes: refusal 1: "),
        ("text cut --log -o new", "11 of 20 bytes: refusal 1: "),
        ("judge cut", "refusal 1: "),
        ("shorten cut -o new", "refusal 1: "),
        ("vouch cut --n 4 --b 0", "refusal 1: "),
        ("text - -o new", "7 of 12 bytes: refusal 1: "),
        (
            "replay image - -o new --keep",
            "ends within a record: refusal 1: ",
        ),
    ];
    refused(&here, &cases, &cut);
    let ended = run(&here, &["run", "cut", "-o", "new"]);
    assert_eq!((ended.text().as_str(), ended.status), ("done 1 1\n", 1));
    let words = "step 2, 7 of 12 bytes: refusal 1: ";
    assert!(ended.err.contains(words), "{ended:?}");
    assert_eq!(names(&here), ["cut", "image", "short"]);
}

#[test]
fn spoiled_images() {
    let here = folder("bad-images");
    fresh(&here);
    let image = fs::read(here.join("image")).unwrap();
    let mut odd = image.clone();
    odd[8] = 1;
    let longer = [&image[..], &[0]].concat();
    refused(&here, &[("show -", "refusal 1: ")], &image[1..]);
    refused(&here, &[("show -", "refusal 1: ")], &longer);
    refused(&here, &[("show -", "refusal 2: ")], &odd);
}

/// A text line, the column of its fault, and what was expected there.
const LINES: &[(&str, usize, &str)] = &[
    (
        "wirte client=1 value=7",
        1,
        "one of `world`, `write`, `read`",
    ),
    (
        "write",
        6,
        "`client=` and a number from 0 to 255, found the end of the line",
    ),
    (
        "write client=256 value=7",
        14,
        "a number from 0 to 255, found `256`",
    ),
    (
        "write client=-1 value=7",
        14,
        "a number from 0 to 255, found `-1`",
    ),
    (
        "write client= value=7",
        14,
        "a number from 0 to 255, found the end of the line",
    ),
    ("write value=7 client=1", 7, "`client=`"),
    (
        "write client=1 value=4294967296",
        22,
        "a number from 0 to 4294967295",
    ),
    (
        "write client=1 value=0x7",
        22,
        "a number from 0 to 4294967295",
    ),
    (
        "write client=1 value=7 now",
        24,
        "the end of the line, found `now`",
    ),
    ("read client=x", 13, "a number from 0 to 255"),
    ("read server=1", 6, "`client=`"),
    ("deliver server=999 message=1", 16, "a number from 0 to 255"),
    (
        "deliver server=1 message=65536",
        26,
        "a number from 0 to 65535",
    ),
    ("take message=", 14, "a number from 0 to 65535"),
    ("fault server=1.0", 14, "a number from 0 to 255"),
    (
        "false-answer server=a view=1 message=1 source=0",
        21,
        "a number from 0 to 255",
    ),
    (
        "false-answer server=1 view=a message=1 source=0",
        28,
        "a number from 0 to 255",
    ),
    (
        "false-answer server=1 view=1 message=a source=0",
        38,
        "a number from 0 to 65535",
    ),
    (
        "false-answer server=1 view=1 message=1 source=a",
        47,
        "a number from 0 to 65535",
    ),
    (
        "new-view members=1,2,33 f=1",
        18,
        "servers as 1,2,3,4, each from 1 to 32, or none",
    ),
    ("new-view members=1,2,2 f=1", 18, "servers as 1,2,3,4"),
    ("new-view members=0 f=1", 18, "servers as 1,2,3,4"),
    ("new-view members= f=1", 18, "servers as 1,2,3,4"),
    ("new-view members=1,2 f=300", 24, "a number from 0 to 255"),
    (
        "new-view members=1,2 f=0 q=1",
        26,
        "`r=` and a number from 0 to 255, or the end of the line, found `q=1`",
    ),
    ("new-view members=1,2 f=0 r=", 28, "a number from 0 to 255"),
    ("new-view members=1,2 f=0 r=1 2", 30, "the end of the line"),
    ("give-up client", 9, "`client=`"),
    (
        "restart f=1",
        9,
        "`members=` and servers as 1,2,3,4, each from 1 to 32, or none, or the end of the line, found `f=1`",
    ),
    ("restart members=1,2", 20, "`f=` and a number from 0 to 255"),
    ("restart members=33 f=0", 17, "servers as 1,2,3,4"),
    (
        "restart members=1,2 f=0 q=1",
        25,
        "`r=` and a number from 0 to 255, or the end of the line",
    ),
    (
        "restart members=1,2 f=0 r=256",
        27,
        "a number from 0 to 255",
    ),
    ("restart members=1 f=0 r=1 2", 27, "the end of the line"),
    ("world members=1", 16, "`f=` and a number from 0 to 255"),
    ("raw bytes=00", 11, "24 hexadecimal digits"),
    (
        "raw bytes=0900000000000000000000zz",
        11,
        "24 hexadecimal digits",
    ),
    ("raw 09", 5, "`bytes=` and 24 hexadecimal digits"),
    ("  \u{e4}rger client=1", 3, "one of "),
    ("write client=1 \u{e4}", 16, "`value=`"),
];

#[test]
fn a_text_line_with_each_field_wrong() {
    let here = folder("bad-text");
    for (line, column, words) in LINES {
        fs::write(
            here.join("in.txt"),
            format!("world members=1 f=0\n\n{line}\nread client=1\n"),
        )
        .unwrap();
        let place = format!("in.txt:3:{column}: expected ");
        for command in [
            &["bytes", "in.txt", "-o", "new"][..],
            &["run", "in.txt", "-o", "new"],
        ] {
            let ended = run(&here, command);
            bad(&here, &ended, 2, words);
            assert!(ended.err.contains(&place), "{place} {ended:?}");
        }
    }
}

#[test]
fn a_log_and_a_list_with_a_field_wrong() {
    let here = folder("bad-lists");
    let bytes =
        |flag: &str, line: &str| fed(&here, &["bytes", "-", flag, "-o", "new"], line.as_bytes());
    let log = "write begin=65536 end=2 count=1 writer=1 value=7";
    bad(
        &here,
        &bytes("--log", log),
        2,
        ":1:13: expected a number from 0 to 65535",
    );
    bad(
        &here,
        &bytes("--log", "give-up client=1"),
        2,
        ":1:1: expected one of `write`, `read` or `raw`",
    );
    let list = "answer server=1 count=1 writer=256 value=7";
    bad(
        &here,
        &bytes("--answers", list),
        2,
        ":1:32: expected a number from 0 to 255",
    );
}

#[test]
fn what_is_no_text_at_all() {
    let here = folder("bad-bytes");
    bad(
        &here,
        &fed(&here, &["bytes", "-", "-o", "new"], &[b'a', 0xff]),
        2,
        ":1:2: expected text in UTF-8",
    );
    bad(
        &here,
        &fed(&here, &["bytes", "-", "-o", "new"], &[0; 9000]),
        2,
        ":1:1: expected a line of at most",
    );
    bad(
        &here,
        &fed(&here, &["bytes", "-", "-o", "new"], &[0; 90]),
        2,
        ":1:1: expected one of",
    );
}

/// Command lines that are not understood, and what is said of them.
const USAGE: &[(&[&str], &str)] = &[
    (&[], "usage: zemawulo COMMAND"),
    (&["fly"], "there is no command `fly`"),
    (&["run"], "run: expected INPUT, found 0 words"),
    (&["run", "a", "b"], "found 2 words"),
    (&["run", "nowhere"], "nowhere: No such file"),
    (&["run", "."], "this is a folder"),
    (&["run", "a", "--speed"], "there is no flag `--speed`"),
    (&["run", "a", "-o"], "`-o` needs a value"),
    (&["run", "a", "--text=1"], "`--text` takes no value"),
    (&["quorum", "4"], "expected N and F"),
    (&["quorum", "4", "-1"], "there is no flag"),
    (&["quorum", "4", "x"], "`F` has no number in range"),
    (&["load", "--seed", "1"], "`--steps` is missing"),
    (
        &["load", "--seed", "4294967296", "--steps", "1"],
        "`--seed` has no number in range",
    ),
    (
        &["load", "--seed", "1", "--seed", "2", "--steps", "1"],
        "stands twice",
    ),
    (
        &["load", "--seed", "1", "--steps", "1", "--f", "0"],
        "`--members` is missing",
    ),
    (
        &["load", "--seed", "1", "--steps", "1", "--r", "0"],
        "`--members` is missing",
    ),
    (
        &["quorum", "4", "1", "--r", "x"],
        "`--r` has no number in range",
    ),
    (&["watch"], "expected INPUT, or IMAGE and JOURNAL"),
    (
        &["fresh", "--members", "1,1", "--f", "0", "-o", "new"],
        "is a list as 1,2,3,4",
    ),
    (&["fresh", "--members", "1", "--f", "0"], "`-o` is missing"),
    (&["text", "a", "--log", "--answers"], "do not go together"),
    (
        &["fresh", "--members", "1", "--f", "0", "-o", "no/new"],
        "No such file",
    ),
];

#[test]
fn bad_usage() {
    let here = folder("bad-usage");
    for (words, says) in USAGE {
        bad(&here, &run(&here, words), 2, says);
    }
    let cases = [
        ("quorum 3 1", "n=3 f=1 r=0: refusal 8: "),
        ("quorum 10 1 --r 2", "n=10 f=1 r=2: refusal 8: "),
        (
            "fresh --members 1,2,3 --f 1 -o new",
            "world members=1,2,3 f=1: refusal 8: ",
        ),
        (
            "fresh --members 1,2,3,4 --f 1 --r 2 -o new",
            "world members=1,2,3,4 f=1 r=2: refusal 8: ",
        ),
    ];
    refused(&here, &cases, &[]);
}

#[test]
fn each_command_has_help() {
    let here = folder("bad-help");
    let overview = run(&here, &["--help"]);
    assert_eq!(overview.status, 0);
    let text = overview.text();
    let names: Vec<&str> = text
        .lines()
        .filter_map(|line| line.strip_prefix("  "))
        .collect();
    assert!(names.len() >= 11);
    for line in names {
        let name = line.split_whitespace().next().unwrap();
        let help = run(&here, &[name, "--help"]);
        assert_eq!(help.status, 0, "{name}");
        assert!(
            help.text().starts_with(&format!("usage: zemawulo {name} ")),
            "{name}"
        );
    }
}

/// What is said of a gibibyte of zeros, and of the most zeros in it that are
/// whole records.
const ZEROS: &[(&str, i32, &str)] = &[
    ("run zeros -o new", 1, "world members=none f=0: refusal 8: "),
    ("replay image zeros -o new --keep", 1, "refusal 1: "),
    (
        "replay image even -o new --keep",
        1,
        "step 1, world members=none f=0: refusal 3: ",
    ),
    ("replay zeros even -o new", 1, "zeros: refusal 1: "),
    ("watch zeros even -o new", 1, "zeros: refusal 1: "),
    ("watch even -o new", 1, "refusal 8: "),
    ("show zeros", 1, "refusal 1: "),
    ("page zeros -o new", 1, "refusal 8: "),
    ("shorten zeros -o new", 1, "refusal 1: "),
    ("judge zeros", 1, "refusal 14: "),
    ("vouch zeros --n 4 --b 0", 1, "refusal 14: "),
    ("text zeros -o new", 1, "4 of 12 bytes: refusal 1: "),
    (
        "run zeros --text -o new",
        2,
        "zeros:1:1: expected a line of at most",
    ),
    (
        "bytes zeros -o new",
        2,
        "zeros:1:1: expected a line of at most",
    ),
];

/// A command in 100 MB of memory.
fn in_little_memory(here: &Path, line: &str) -> Ended {
    let script = format!("ulimit -v 100000; exec \"$0\" {line}");
    let ended = Command::new("sh")
        .args(["-c", &script, env!("CARGO_BIN_EXE_zemawulo")])
        .current_dir(here)
        .output()
        .unwrap();
    Ended {
        out: ended.stdout,
        err: String::from_utf8_lossy(&ended.stderr).into_owned(),
        status: ended.status.code().unwrap_or(-1),
    }
}

#[test]
fn a_gibibyte_of_zeros() {
    let here = folder("bad-zeros");
    fresh(&here);
    for (name, length) in [("zeros", 1 << 30), ("even", (1 << 30) / 12 * 12)] {
        let file = File::create(here.join(name)).unwrap();
        file.set_len(length).unwrap();
    }
    for (line, status, words) in ZEROS {
        bad(&here, &in_little_memory(&here, line), *status, words);
    }
}
