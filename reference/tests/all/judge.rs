//! Request 5: judging a log from elsewhere.

use std::collections::BTreeMap;

use reference::entry::Entry;
use reference::generate::journals::journal;
use reference::generate::logs::{kept, log};
use reference::generate::profile::PROFILES;
use reference::history::ideas::IDEAS;
use reference::history::operations::run;
use reference::history::verdict::examine;
use reference::judge::{
    by_all_orders, bytes, decide, is_judged, judge, log_of, Line, LINES, LINE_SIZE, PLACE_SIZE,
};
use reference::refusal::{Flaw, Reason};
use reference::rules::Sound;
use reference::xorshift::Draws;

/// The judgement of these lines, and the order that is shown.
fn judged(lines: &[Line]) -> Result<Vec<usize>, Reason> {
    let log = bytes(lines);
    let mut order = vec![0xff; lines.len() * PLACE_SIZE];
    let count = judge(&log, &mut order).inspect_err(|_| {
        assert!(order.iter().all(|byte| *byte == 0xff), "nothing is written");
    })?;
    let places: Vec<usize> = order
        .chunks(PLACE_SIZE)
        .map(|place| usize::from(u16::from_le_bytes([place[0], place[1]])))
        .collect();
    assert!(places[count..].iter().all(|line| *line == 0));
    Ok(places[..count].to_vec())
}

fn entry(count: u32) -> Entry {
    match count {
        0 => Entry::EMPTY,
        _ => Entry::new(count, 1, count),
    }
}

fn write(begin: u16, end: u16, count: u32) -> Line {
    Line::write(begin, end, entry(count))
}

fn read(begin: u16, end: u16, count: u32) -> Line {
    Line::read(begin, end, entry(count))
}

#[test]
fn marked_logs() {
    let no = Err(Reason::NoOrder);
    assert_eq!(judged(&[]), Ok(vec![]));
    assert_eq!(judged(&[read(1, 2, 0)]), Ok(vec![1]));
    assert_eq!(judged(&[read(3, 4, 1), write(1, 2, 1)]), Ok(vec![2, 1]));
    // A read before its write began, and one of what nobody wrote.
    assert_eq!(judged(&[read(1, 2, 1), write(3, 4, 1)]), no);
    assert_eq!(judged(&[read(1, 2, 1)]), no);
    // Two reads the wrong way round in real time.
    assert_eq!(judged(&[write(1, 8, 1), read(2, 3, 1), read(4, 5, 0)]), no);
    assert_eq!(
        judged(&[write(1, 8, 1), read(4, 5, 1), read(2, 3, 0)]),
        Ok(vec![3, 1, 2])
    );
    // An unfinished write that is returned, and one that is not.
    assert_eq!(judged(&[write(1, 0, 1), read(2, 3, 1)]), Ok(vec![1, 2]));
    assert_eq!(judged(&[write(1, 0, 1), read(2, 3, 0)]), Ok(vec![2]));
    assert_eq!(judged(&[write(3, 0, 1), read(1, 2, 1)]), no);
    // Unfinished reads are left out, whatever they show.
    assert_eq!(judged(&[read(1, 0, 9), write(2, 3, 1)]), Ok(vec![2]));
    // A read of count 0 that is not empty, and of a stamp with another value.
    assert_eq!(judged(&[Line::read(1, 2, Entry::new(0, 0, 5))]), no);
    assert_eq!(judged(&[Line::read(1, 2, Entry::new(0, 3, 0))]), no);
    let other = Line::read(3, 4, Entry::new(1, 1, 9));
    assert_eq!(judged(&[write(1, 2, 1), other]), no);
    // Stamps may not fall, though an order would exist.
    assert_eq!(judged(&[write(1, 2, 2), write(3, 4, 1), read(5, 6, 1)]), no);
    assert_eq!(judged(&[write(1, 2, 2), write(3, 4, 1)]), no);
    // Numbers may be as large as they are.
    assert_eq!(judged(&[write(65534, 65535, 1)]), Ok(vec![1]));
}

#[test]
fn each_clause_of_14() {
    let flawed = |lines: &[Line]| match judged(lines) {
        Err(Reason::Malformed(flaw)) => flaw,
        other => panic!("{other:?}"),
    };
    let line = write(1, 2, 1);
    assert_eq!(flawed(&[Line { begin: 0, ..line }]), Flaw::Begin);
    for kind in [0, 3, 255] {
        assert_eq!(flawed(&[Line { kind, ..line }]), Flaw::Kind);
    }
    for place in 0..3 {
        let mut other = line;
        other.spare[place] = 1;
        assert_eq!(flawed(&[other]), Flaw::Spare);
        let mut other = line;
        other.entry.spare[place] = 1;
        assert_eq!(flawed(&[other]), Flaw::Spare);
    }
    assert_eq!(
        flawed(&[Line::write(1, 2, Entry::new(1, 17, 0))]),
        Flaw::Writer
    );
    assert_eq!(
        judged(&[Line::write(1, 2, Entry::new(1, 0, 0))]),
        Ok(vec![1])
    );
    assert_eq!(flawed(&[write(2, 1, 1)]), Flaw::EndNotAfter);
    assert_eq!(flawed(&[write(2, 2, 1)]), Flaw::NumberTwice);
    assert_eq!(flawed(&[write(1, 0, 1), read(1, 0, 0)]), Flaw::NumberTwice);
    assert_eq!(flawed(&[write(1, 3, 1), read(2, 3, 0)]), Flaw::NumberTwice);
    assert_eq!(flawed(&[write(1, 2, 1), read(2, 0, 0)]), Flaw::NumberTwice);
    assert_eq!(
        flawed(&[Line::write(1, 0, Entry::new(0, 1, 1))]),
        Flaw::CountZero
    );
    let again = Line::write(3, 0, Entry::new(1, 1, 9));
    assert_eq!(flawed(&[line, again]), Flaw::StampTwice);
    let many: Vec<Line> = (0..257).map(|n| read(2 * n + 1, 2 * n + 2, 0)).collect();
    assert_eq!(flawed(&many), Flaw::TooManyLines);
    assert_eq!(judged(&many[1..]).map(|order| order.len()), Ok(256));
}

#[test]
fn another_length_is_1_before_14() {
    let mut log = bytes(&[write(0, 1, 1)]);
    assert_eq!(judge(&log, &mut [0; 4]), Err(Reason::OrderLength));
    assert_eq!(judge(&log, &mut []), Err(Reason::OrderLength));
    log.push(0);
    assert_eq!(judge(&log, &mut [0; 2]), Err(Reason::LogLength));
    let many = vec![0; LINE_SIZE * (LINES + 1)];
    assert_eq!(judge(&many, &mut [0; 2 * LINES]), Err(Reason::OrderLength));
}

#[test]
fn all_orders_agree_on_small_logs() {
    let mut draws = Draws::new(21);
    let mut met: BTreeMap<u8, u32> = BTreeMap::new();
    for _ in 0..20_000 {
        let lines = log(&mut draws, 7);
        let answer = judged(&lines);
        *met.entry(answer.as_ref().map_or_else(|reason| reason.number(), |_| 0))
            .or_default() += 1;
        match answer {
            Ok(order) => {
                let order: Vec<usize> = order.iter().map(|line| line - 1).collect();
                assert!(
                    is_judged(&lines, &order) && by_all_orders(&lines),
                    "{lines:?}"
                );
            }
            Err(Reason::NoOrder) => assert!(!by_all_orders(&lines), "{lines:?}"),
            Err(_) => {}
        }
    }
    for number in [0, 13, 14] {
        assert!(met[&number] >= 1000, "{met:?}");
    }
    assert_eq!(met.len(), 3, "{met:?}");
}

#[test]
fn kept_promises_are_judged_so() {
    let mut draws = Draws::new(22);
    for _ in 0..100 {
        let lines = kept(&mut draws, LINES);
        assert!(judged(&lines).is_ok());
    }
}

#[test]
fn runs_within_the_premise_are_judged_yes() {
    for profile in PROFILES {
        for seed in 0..40 {
            let drawn = journal::<Sound>(seed, profile);
            let lines = log_of(&run::<Sound>(&drawn).operations);
            let verdict = examine::<Sound>(&drawn);
            if lines.len() <= LINES && verdict.premise {
                assert!(judged(&lines).is_ok(), "{} {seed}", profile.name);
            }
            if lines.len() <= LINES {
                assert_eq!(decide(&lines).is_some(), verdict.by_stamp);
            }
        }
    }
}

#[test]
fn runs_of_wrong_ideas_are_judged_no() {
    for idea in &IDEAS {
        let found = (0..3).filter_map(|seed| {
            let seed = seed * 1_000_000;
            idea.hunt(seed, 2000).map(|run| idea.drawn(seed + run))
        });
        for journal in std::iter::once((idea.by_hand)()).chain(found) {
            let number = judged(&(idea.log)(&journal)).map_or_else(Reason::number, |_| 0);
            // A stamp given twice makes the log malformed.
            let twice = idea.name == "a given-up write's stamp is given again";
            assert_eq!(number, if twice { 14 } else { 13 }, "{}", idea.name);
        }
    }
}
