//! The history checkers, against each other and against known answers.

use reference::entry::Entry;
use reference::generate::journals::journal;
use reference::generate::profile::{FULL, GLIMPSE, STILL, STORM, TINY, WRECK};
use reference::history::blocks::find;
use reference::history::claim::fits;
use reference::history::operations::{Kind, Operation};
use reference::history::search::{by_all_orders, by_trying};
use reference::history::sorted::by_stamp;
use reference::history::verdict::examine;
use reference::rules::Sound;
use reference::xorshift::Draws;

fn entry(number: u32) -> Entry {
    match number {
        0 => Entry::EMPTY,
        _ => Entry::new(number, 1, number),
    }
}

fn operation(kind: Kind, began: usize, ended: usize, number: u32) -> Operation {
    Operation {
        client: 1,
        kind,
        began,
        // A large end stands for none.
        ended: (ended < 100).then_some(ended),
        entry: Some(entry(number)),
    }
}

fn write(began: usize, ended: usize, number: u32) -> Operation {
    operation(Kind::Write, began, ended, number)
}

fn read(began: usize, ended: usize, number: u32) -> Operation {
    operation(Kind::Read, began, ended, number)
}

/// Whether an order exists, by all ways at once.
fn has_order(operations: &[Operation]) -> bool {
    let found = find(operations);
    if let Some(order) = &found {
        assert!(fits(operations, order));
    }
    assert_eq!(by_trying(operations).is_some(), found.is_some());
    if operations.len() <= 6 {
        assert_eq!(by_all_orders(operations), found.is_some());
    }
    found.is_some()
}

#[test]
fn histories_with_an_order() {
    assert!(has_order(&[]));
    assert!(has_order(&[read(0, 1, 0)]));
    assert!(has_order(&[write(0, 1, 1), read(2, 3, 1)]));
    // A write and a read at the same time may go either way.
    assert!(has_order(&[write(0, 3, 1), read(1, 2, 1)]));
    assert!(has_order(&[write(0, 3, 1), read(1, 2, 0)]));
    // An unfinished write comes in where a read returned it.
    assert!(has_order(&[write(0, 100, 1), read(1, 2, 0), read(3, 4, 1)]));
    // Stamps need not follow the order.
    let swapped = [write(0, 1, 2), write(2, 3, 1), read(4, 5, 1)];
    assert!(has_order(&swapped));
    assert_eq!(by_stamp(&swapped), None);
    // Writes of one entry, and a read behind either of them.
    assert!(has_order(&[write(0, 1, 1), write(2, 3, 1), read(4, 5, 1)]));
}

#[test]
fn histories_without_an_order() {
    // A stale read.
    assert!(!has_order(&[write(0, 1, 1), read(2, 3, 0)]));
    // A read of what nobody wrote, or wrote later.
    assert!(!has_order(&[read(0, 1, 1)]));
    assert!(!has_order(&[read(0, 1, 1), write(2, 3, 1)]));
    // A second read that sees less than the first.
    assert!(!has_order(&[
        write(0, 100, 1),
        read(1, 2, 1),
        read(3, 4, 0)
    ]));
    // Back to the first write after the second.
    let back = [write(0, 1, 1), write(2, 3, 2), read(4, 5, 2), read(6, 7, 1)];
    assert!(!has_order(&back));
    // Two equal reads with a write of the same entry between them.
    let between = [write(0, 1, 1), read(2, 3, 1), write(4, 5, 1), read(6, 7, 1)];
    assert!(!has_order(&between));
    // Two writes at the same time, and reads that want each before the other.
    let circle = [
        write(0, 20, 1),
        write(1, 21, 2),
        read(2, 3, 1),
        read(4, 5, 2),
        read(6, 7, 1),
    ];
    assert!(!has_order(&circle));
}

#[test]
fn an_order_is_judged_sentence_by_sentence() {
    let history = [write(0, 1, 1), read(2, 3, 1), write(2, 5, 2), read(4, 6, 2)];
    assert!(fits(&history, &[0, 1, 2, 3]));
    assert!(!fits(&history, &[0, 1, 2]), "an operation is missing");
    assert!(!fits(&history, &[0, 1, 1, 3]), "an operation stands twice");
    assert!(!fits(&history, &[1, 0, 2, 3]), "time is not kept");
    assert!(
        !fits(&history, &[0, 2, 1, 3]),
        "a read does not return the last write"
    );
}

/// A history drawn with no regard to the rules: intervals and entries at will.
fn drawn(draws: &mut Draws, most: usize) -> Vec<Operation> {
    let count = draws.between(1, most);
    let writes = draws.between(1, 3) as u32;
    let mut ends: Vec<usize> = (0..2 * count).collect();
    draws.shuffle(&mut ends);
    ends.chunks(2)
        .map(|pair| {
            let (began, ended) = (pair[0].min(pair[1]), pair[0].max(pair[1]));
            let kind = if draws.chance(45) {
                Kind::Write
            } else {
                Kind::Read
            };
            // Writes have some entry, seldom one that another has.
            let number = match kind {
                Kind::Write => draws.between(1, writes as usize + 2) as u32,
                Kind::Read => draws.between(0, writes as usize + 1) as u32,
            };
            let unfinished = kind == Kind::Write && draws.chance(15);
            operation(kind, began, if unfinished { 100 } else { ended }, number)
        })
        .collect()
}

#[test]
fn all_ways_agree_on_drawn_histories() {
    let mut draws = Draws::new(1);
    let (mut yes, mut no) = (0, 0);
    for _ in 0..20_000 {
        let history = drawn(&mut draws, 6);
        *(if has_order(&history) {
            &mut yes
        } else {
            &mut no
        }) += 1;
    }
    assert!(yes > 2000 && no > 2000, "{yes} with an order, {no} without");
}

#[test]
fn all_ways_agree_on_larger_drawn_histories() {
    let mut draws = Draws::new(2);
    let mut yes = 0;
    for _ in 0..3000 {
        yes += u32::from(has_order(&drawn(&mut draws, 9)));
    }
    assert!(yes > 50, "{yes} with an order");
}

#[test]
fn journals_within_the_premise_have_an_order() {
    for (profile, journals) in [(&STORM, 600), (&STILL, 600), (&GLIMPSE, 300), (&FULL, 5)] {
        for seed in 5000..5000 + journals {
            let verdict = examine::<Sound>(&journal::<Sound>(seed, profile));
            assert!(verdict.premise, "{} {seed}", profile.name);
            assert!(verdict.order, "{} {seed}", profile.name);
            assert!(verdict.by_stamp, "{} {seed}", profile.name);
            assert!(!verdict.is_at_odds(), "{} {seed}", profile.name);
        }
    }
}

#[test]
fn beyond_the_premise_some_journals_have_none() {
    for profile in [&WRECK, &TINY] {
        let mut none = 0;
        for seed in 0..600 {
            let verdict = examine::<Sound>(&journal::<Sound>(seed, profile));
            assert!(!verdict.is_violation() && !verdict.is_at_odds());
            none += u32::from(!verdict.order);
        }
        assert!(none > 40, "{none} of 600 {}", profile.name);
    }
}
