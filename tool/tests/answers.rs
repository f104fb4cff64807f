//! What the other commands answer: as the proved programs print it, and by hand.

mod common;

use std::fs;
use std::path::{Path, PathBuf};

use common::{fed, folder, run};

fn of_crate(name: &str, file: &str) -> PathBuf {
    Path::new(env!("CARGO_MANIFEST_DIR")).join(format!("../crates/{name}/{file}"))
}

#[test]
fn judge_prints_what_the_program_does() {
    let here = folder("answers-judge");
    for name in ["judge", "session_no_order", "session_malformed_log"] {
        let log = of_crate(name, "stdin");
        let wanted = fs::read_to_string(of_crate(name, "stdout")).unwrap();
        let ended = run(&here, &["judge", &log.to_string_lossy()]);
        assert_eq!(ended.text(), wanted, "{name}");
        assert_eq!(ended.status, i32::from(!wanted.ends_with(" 0\n")), "{name}");
        let text = run(&here, &["text", "--log", &log.to_string_lossy()]);
        let judged = fed(&here, &["judge", "--text", "-"], &text.out);
        assert_eq!(judged.text(), wanted, "{name}");
    }
}

#[test]
fn load_writes_what_the_program_does() {
    let here = folder("answers-load");
    let input = fs::read(of_crate("load", "stdin")).unwrap();
    let number = |at: usize| u32::from_le_bytes(input[at..at + 4].try_into().unwrap()).to_string();
    let (seed, steps) = (number(0), number(4));
    let load = ["load", "--seed", &seed, "--steps", &steps];
    assert_eq!(
        run(&here, &load).out,
        fs::read(of_crate("load", "stdout")).unwrap()
    );
    let with = [&load[..], &["--members=1,2,3,4", "--f=1"]].concat();
    let world = [0, 0, 0, 1, 0, 0, 0, 0, 15, 0, 0, 0];
    assert_eq!(run(&here, &with).out[..12], world);
    let with = [&with[..], &["--r", "3"]].concat();
    let world = [0, 3, 0, 1, 0, 0, 0, 0, 15, 0, 0, 0];
    assert_eq!(run(&here, &with).out[..12], world);
}

#[test]
fn sizes() {
    let here = folder("answers-sizes");
    let cases: [(&[&str], &str); 5] = [
        (&["1", "0"], "read=1 write=1\n"),
        (&["4", "1"], "read=3 write=3\n"),
        (&["32", "10"], "read=22 write=22\n"),
        (&["10", "1", "--r", "3"], "read=3 write=9\n"),
        (&["10", "1", "--r=6"], "read=6 write=6\n"),
    ];
    for (words, sizes) in cases {
        assert_eq!(run(&here, &[&["quorum"], words].concat()).text(), sizes);
    }
}

#[test]
fn the_short_journal() {
    let here = folder("answers-shorten");
    let input = "world members=1,2,3 f=0\nread client=1\nread client=2\nwrite client=1 value=3\n";
    let ended = fed(&here, &["shorten", "--text", "-"], input.as_bytes());
    let lines: Vec<String> = ended.text().lines().map(str::to_string).collect();
    let short = [
        "world members=1,2,3 f=0",
        "read client=1",
        "write client=1 value=3",
    ];
    assert_eq!(lines[..3], short);
    assert!(lines[3].starts_with("# refusal 4: "), "{lines:?}");
    assert_eq!(
        fed(
            &here,
            &["shorten", "--text", "-", "-o", "short"],
            input.as_bytes()
        )
        .status,
        0
    );
    let again = run(&here, &["run", "short"]);
    assert_eq!((again.text().as_str(), again.status), ("done 1 4\n", 1));
    let none = fed(
        &here,
        &["shorten", "--text", "-"],
        b"world members=1 f=0\nread client=1\n",
    );
    assert_eq!(none.status, 1);
    assert!(none.err.contains("refusal 15: "), "{none:?}");
}

#[test]
fn vouched_entries() {
    let here = folder("answers-vouch");
    let mut list = "answer server=5 count=9 writer=9 value=9\n".to_string();
    for server in 1..=3 {
        list += &format!("answer server={server} count=3 writer=2 value=7\n");
    }
    let vouch = ["vouch", "--text", "-", "--n", "5", "--b", "1"];
    let ended = fed(&here, &vouch, list.as_bytes());
    assert_eq!(ended.text(), "count=3 writer=2 value=7\n", "{ended:?}");
    let largest = [&vouch[..], &["--largest", "1"]].concat();
    assert_eq!(
        fed(&here, &largest, list.as_bytes()).text(),
        "count=3 writer=2 value=7\n"
    );
    let apart = list.replacen("server=1 count=3", "server=1 count=4", 1);
    let apart = apart.replacen("server=2 count=3", "server=2 count=5", 1);
    let ended = fed(&here, &vouch, apart.as_bytes());
    assert_eq!(ended.status, 1);
    assert!(ended.err.contains("refusal 16: "), "{ended:?}");
}

#[test]
fn an_image_as_tables() {
    let here = folder("answers-show");
    let input = Path::new(env!("CARGO_MANIFEST_DIR")).join("../sessions/stale-read.in");
    assert_eq!(
        run(&here, &["run", &input.to_string_lossy(), "-o", "image"]).status,
        0
    );
    let shown = run(&here, &["show", "image"]).text();
    for line in [
        "the premise does not hold",
        "  1     1,2,3,4  4  1  0  3     3      1,2,3,4       1,2              2",
        "  1       1     faulty   1     count=2 writer=1 value=1500",
        "  2       idle   -        read       count=1 writer=1 value=1000  0",
        "  17       READ    client 2  -     -        -                            chain 20 19 18",
    ] {
        assert!(shown.lines().any(|shown| shown == line), "{line}\n{shown}");
    }
}

#[test]
fn two_sizes_of_a_view() {
    let here = folder("answers-two-sizes");
    let fresh = ["fresh", "--members", "1,2,3,4,5,6,7,8,9,10", "--f", "1"];
    let fresh = [&fresh[..], &["--r", "3", "-o", "image"]].concat();
    assert_eq!(run(&here, &fresh).status, 0);
    let line = "new-view members=1,2,3,4 f=1 r=3\n";
    let bytes = fed(&here, &["bytes", "-"], line.as_bytes());
    assert_eq!(bytes.out, [7, 3, 0, 1, 0, 0, 0, 0, 15, 0, 0, 0]);
    assert_eq!(fed(&here, &["text", "-"], &bytes.out).text(), line);
    let called = fed(&here, &["replay", "image", "-", "-o", "next"], &bytes.out);
    assert_eq!(called.text(), "done 1 0\n", "{called:?}");
    let shown = run(&here, &["show", "next"]).text();
    for line in [
        "  1     1,2,3,4,5,6,7,8,9,10  10  1  3  3     9      1,2,3,4,5,6,7,8,9,10  none             0",
        "  2     1,2,3,4               4   1  3  3     3      none                  none             0",
    ] {
        assert!(shown.lines().any(|shown| shown == line), "{line}\n{shown}");
    }
    let small = "world members=1,2,3,4 f=1 r=2\n";
    let ended = fed(&here, &["run", "--text", "-"], small.as_bytes());
    assert_eq!((ended.text().as_str(), ended.status), ("done 0 8\n", 1));
    assert!(ended.err.contains("f=1 r=2: refusal 8: "), "{ended:?}");
}

#[test]
fn the_step_that_breaks_the_premise() {
    let here = folder("answers-watch");
    let input = "world members=1,2,3,4 f=1\nfault server=1\nfault server=2\nfault server=2\n";
    let ended = fed(&here, &["watch", "--text", "-"], input.as_bytes());
    let words = "the premise does not hold from step 2 on\ndone 2 6\n";
    assert_eq!((ended.text().as_str(), ended.status), (words, 1));
    assert!(ended.err.contains("step 3, fault server=2: refusal 6: "));
    let fresh = ["fresh", "--members=1,2,3,4", "--f=1", "-o", "image"];
    assert_eq!(run(&here, &fresh).status, 0);
    let steps = "fault server=1\nread client=1\n";
    let watch = ["watch", "image", "--text", "-", "-o", "next"];
    let ended = fed(&here, &watch, steps.as_bytes());
    let words = "the premise holds after every step\ndone 2 0\n";
    assert_eq!((ended.text().as_str(), ended.status), (words, 0));
    let steps = "give-up client=1\nread client=2\ngive-up client=2\n".to_string()
        + &"read client=3\ngive-up client=3\n".repeat(400)
        + "fault server=4\n";
    let ended = fed(&here, &["watch", "next", "--text", "-"], steps.as_bytes());
    let words = "the premise does not hold from step 804 on\ndone 804 0\n";
    assert_eq!((ended.text().as_str(), ended.status), (words, 0));
    // It ends within a record, and no step is done.
    let faults = [[5, 2, 0, 0, 0, 0, 0, 0, 0, 0, 0, 0], [5; 12]].concat();
    let ended = fed(&here, &["watch", "next", "-"], &faults[..20]);
    let words = "the premise holds after every step\ndone 0 1\n";
    assert_eq!((ended.text().as_str(), ended.status), (words, 1));
}
