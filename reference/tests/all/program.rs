//! The program's lines.

use std::collections::BTreeSet;

use reference::generate::journals::journal;
use reference::generate::profile::STORM;
use reference::history::operations::{self as history, Kind};
use reference::history::verdict::examine;
use reference::journal::Journal;
use reference::layout::{STEP_SIZE, VIEWS};
use reference::program::run;
use reference::record::{step_kind, Step};
use reference::rules::Sound;
use reference::sessions::{
    given_up, given_up_surfaces, replaced_entry, retired_server, sessions, stale_read,
    unfinished_write, worked, Session,
};

#[test]
fn worked_session() {
    assert_eq!(run(&worked().input()), "1 W 1 1 7\n2 R 1 1 7\ndone 8 5\n");
}

#[test]
fn input_that_is_no_session() {
    assert_eq!(run(&[]), "done 0 1\n");
    assert_eq!(run(&[0]), "done 0 1\n");
    assert_eq!(run(&[9; 11]), "done 0 1\n");
    // Another form comes before a broken size rule.
    let world = Journal::new(0, 0).input();
    assert_eq!(run(&world), "done 0 8\n");
    for place in [0, 2, 4, 5, 6, 7] {
        let mut other = world.clone();
        other[place] = 1;
        assert_eq!(run(&other), "done 0 3\n", "byte {place}");
    }
}

#[test]
fn a_cut_record_counts_only_if_it_is_reached() {
    let journal = Journal::new(0b1, 0).then(Step::read(1));
    let mut input = journal.input();
    input.extend([1, 2, 3]);
    assert_eq!(run(&input), "done 1 1\n");
    let mut input = journal.then(Step::read(1)).input();
    input.extend([1, 2, 3]);
    assert_eq!(run(&input), "done 1 4\n");
}

fn session(name: &str) -> Session {
    sessions()
        .into_iter()
        .find(|session| session.name == name)
        .unwrap_or_else(|| panic!("no session {name}"))
}

#[test]
fn sessions_by_hand() {
    let expected = [
        ("worked", "1 W 1 1 7\n2 R 1 1 7\ndone 8 5\n"),
        ("write-back", "1 W 1 1 7\n2 R 1 1 7\ndone 18 0\n"),
        ("two-sizes", "1 W 1 1 7\n2 R 1 1 7\n2 R 1 1 7\ndone 39 0\n"),
        (
            "one-exchange",
            "1 W 1 1 1500\n2 R 1 1 1500\n2 R 1 1 1500\ndone 38 0\n",
        ),
        (
            "retired-server",
            "1 W 1 1 1000\n1 W 2 1 1500\n2 R 2 1 1500\ndone 45 0\n",
        ),
        (
            "replaced-entry",
            "1 W 1 1 1000\n2 W 2 2 1500\n3 R 2 2 1500\n4 R 2 2 1500\ndone 59 0\n",
        ),
        (
            "stale-read",
            "1 W 1 1 1000\n1 W 2 1 1500\n2 R 1 1 1000\ndone 41 0\n",
        ),
        (
            "unfinished-write",
            "1 W 1 1 1\n3 R 1 1 1\n3 R 2 2 2\n4 R 2 2 2\ndone 38 0\n",
        ),
        (
            "given-up",
            "1 W 2 1 1500\n2 R 2 1 1500\n1 W 3 1 2500\n2 R 3 1 2500\ndone 50 0\n",
        ),
        (
            "given-up-surfaces",
            "2 R 0 0 0\n2 R 1 1 1000\n1 W 2 1 1500\n3 R 2 1 1500\ndone 37 0\n",
        ),
        ("full-table", "1 W 1 1 9\n2 W 2 2 8\ndone 1030 10\n"),
        ("empty", "done 0 1\n"),
        ("first-cut-short", "done 0 1\n"),
        ("cut-short", "1 W 1 1 7\ndone 7 1\n"),
        ("first-of-other-kind", "done 0 3\n"),
        ("no-members", "done 0 8\n"),
        ("too-few-members", "done 0 8\n"),
        ("first-with-read-size", "1 W 1 1 7\n2 R 1 1 7\ndone 8 5\n"),
        ("first-with-view", "done 0 3\n"),
        ("read-size-too-large", "done 0 8\n"),
        ("read-size-too-small", "done 0 8\n"),
        ("world-alone", "done 0 0\n"),
    ];
    for (name, output) in expected {
        assert_eq!(session(name).output(), output, "{name}");
    }
}

#[test]
fn only_the_stale_read_lacks_the_premise_and_the_order() {
    for journal in [
        retired_server(),
        replaced_entry(),
        unfinished_write(),
        given_up(),
        given_up_surfaces(),
    ] {
        let verdict = examine::<Sound>(&journal);
        assert!(verdict.premise && verdict.order);
    }
    let verdict = examine::<Sound>(&stale_read());
    assert!(!verdict.premise && !verdict.order);
}

#[test]
fn refused_sessions_stop_with_the_number_in_their_name() {
    let mut numbers = BTreeSet::new();
    for session in sessions() {
        if let Some(rest) = session.name.strip_prefix("refused-") {
            let number: u8 = rest.split('-').next().unwrap().parse().unwrap();
            let output = session.output();
            let stop = output.trim_end().rsplit(' ').next().unwrap().parse();
            assert_eq!(stop, Ok(number), "{}", session.name);
            numbers.insert(number);
        }
    }
    assert_eq!(numbers, (3..=9).chain([12]).collect());
}

#[test]
fn drawn_sessions_run_to_their_end() {
    for name in ["many-views", "many-clients", "full-year"] {
        let session = session(name);
        let output = session.output();
        let steps = session.input.len() / 12 - 1;
        assert!(output.ends_with(&format!("done {steps} 0\n")), "{name}");
        assert!(output.lines().count() > 5, "{name} has operations");
    }
    // The last view is reached.
    let input = session("many-views").input;
    let views = input
        .chunks(STEP_SIZE)
        .filter(|step| step[0] == step_kind::NEW_VIEW);
    assert_eq!(views.count(), VIEWS - 1);
}

#[test]
fn the_lines_are_the_completed_operations() {
    for seed in 0..50 {
        let drawn = journal::<Sound>(seed, &STORM.with_odd(false));
        let mut operations = history::run::<Sound>(&drawn).operations;
        operations.retain(|operation| operation.is_completed());
        operations.sort_by_key(|operation| operation.ended);
        let mut lines = String::new();
        for operation in operations {
            let kind = if operation.kind == Kind::Write {
                'W'
            } else {
                'R'
            };
            let entry = operation.entry.unwrap();
            let (count, writer, value) = (entry.count, entry.writer, entry.value);
            lines += &format!("{} {kind} {count} {writer} {value}\n", operation.client);
        }
        lines += &format!("done {} 0\n", drawn.steps.len());
        assert_eq!(run(&drawn.input()), lines);
    }
}

#[test]
fn session_names_are_different() {
    let sessions = sessions();
    let names: BTreeSet<&str> = sessions
        .iter()
        .map(|session| session.name.as_str())
        .collect();
    assert_eq!(names.len(), sessions.len());
}
