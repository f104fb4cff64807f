//! Request 10: entries without a signature.

use reference::codec::Record;
use reference::entry::Entry;
use reference::generate::answers::list;
use reference::layout::ENTRY_SIZE;
use reference::refusal::{Flaw, Reason};
use reference::vouch::{bytes, quorum, vouch, vouch_threshold, Answer};
use reference::xorshift::Draws;

fn answers(entries: &[Entry]) -> Vec<Answer> {
    (1..)
        .zip(entries)
        .map(|(server, entry)| Answer::new(server, *entry))
        .collect()
}

/// The first choice; a refusal must leave the buffer.
fn first(answers: &[Answer], n: u32, b: u32) -> Result<Entry, Reason> {
    let mut entry = [0xff; ENTRY_SIZE];
    let answer = vouch(&bytes(answers), n, b, &mut entry);
    assert!(answer.is_ok() || entry == [0xff; ENTRY_SIZE]);
    answer.map(|()| Entry::load(&entry))
}

/// The second choice.
fn second(answers: &[Answer], n: u32, b: u32, largest: u32) -> Result<Entry, Reason> {
    let mut entry = [0xff; ENTRY_SIZE];
    let answer = vouch_threshold(&bytes(answers), n, b, largest, &mut entry);
    assert!(answer.is_ok() || entry == [0xff; ENTRY_SIZE]);
    answer.map(|()| Entry::load(&entry))
}

const OLD: Entry = Entry::new(1, 1, 10);
const NEW: Entry = Entry::new(2, 1, 20);
const FORGED: Entry = Entry::new(9, 9, 90);

#[test]
fn the_largest_entry_that_enough_vouch_for() {
    let list = answers(&[NEW, NEW, OLD, FORGED]);
    assert_eq!(first(&list, 5, 1), Ok(NEW));
    assert_eq!(first(&answers(&[NEW, OLD, OLD, FORGED]), 5, 1), Ok(OLD));
    let none = answers(&[NEW, OLD, Entry::EMPTY, FORGED]);
    assert_eq!(first(&none, 5, 1), Err(Reason::NotVouched));
    // Without liars one server is enough.
    assert_eq!(first(&answers(&[OLD, NEW, OLD]), 5, 0), Ok(NEW));
    // The empty entry qualifies like any other.
    assert_eq!(first(&answers(&[Entry::EMPTY; 4]), 5, 1), Ok(Entry::EMPTY));
    assert_eq!(first(&answers(&[Entry::EMPTY]), 1, 0), Ok(Entry::EMPTY));
}

#[test]
fn for_equal_stamps_the_smaller_value() {
    let [small, large] = [Entry::new(2, 1, 5), Entry::new(2, 1, 6)];
    for list in [[small, small, large, large], [large, large, small, small]] {
        assert_eq!(first(&answers(&list), 5, 1), Ok(small));
        assert_eq!(second(&answers(&list), 5, 1, 1), Ok(small));
    }
    // Only if it is vouched for itself.
    assert_eq!(
        first(&answers(&[small, large, large, OLD]), 5, 1),
        Ok(large)
    );
    // The writer counts before the value.
    let other = Entry::new(2, 2, 9);
    assert_eq!(
        first(&answers(&[small, small, other, other]), 5, 1),
        Ok(other)
    );
}

#[test]
fn the_second_choice_wants_more_and_drops_what_is_countermanded() {
    // n 9, b 0, the largest b 2: at least 5 answers, 3 of which vouch.
    let list = answers(&[NEW, NEW, NEW, OLD, OLD]);
    assert_eq!(second(&list, 9, 0, 2), Ok(NEW));
    assert_eq!(second(&list, 9, 0, 0), Ok(NEW));
    let few = answers(&[NEW, NEW, OLD, OLD, OLD]);
    assert_eq!(
        second(&few, 9, 0, 2),
        Ok(OLD),
        "two larger are too few against it"
    );
    assert_eq!(first(&few, 9, 0), Ok(NEW));
    // Three larger stamps, of whatever entries, drop it.
    let dropped = answers(&[NEW, FORGED, Entry::new(3, 0, 0), OLD, OLD, OLD]);
    assert_eq!(second(&dropped, 9, 0, 2), Err(Reason::NotVouched));
    // Equal stamps are not larger.
    let equal = answers(&[
        Entry::new(1, 1, 11),
        Entry::new(1, 1, 12),
        FORGED,
        OLD,
        OLD,
        OLD,
    ]);
    assert_eq!(second(&equal, 9, 0, 2), Ok(OLD));
}

#[test]
fn each_clause_of_14() {
    let list = answers(&[NEW; 4]);
    let flaw = |list: &[Answer], n, b| match (first(list, n, b), second(list, n, b, b)) {
        (Err(Reason::Malformed(one)), Err(Reason::Malformed(_))) => one,
        other => panic!("{other:?}"),
    };
    for place in 0..3 {
        let mut other = list.clone();
        other[1].spare[place] = 1;
        assert_eq!(flaw(&other, 5, 1), Flaw::Spare);
        let mut other = list.clone();
        other[1].entry.spare[place] = 1;
        assert_eq!(flaw(&other, 5, 1), Flaw::Spare);
    }
    let mut other = list.clone();
    other[3].entry.writer = 17;
    assert_eq!(flaw(&other, 5, 1), Flaw::Writer);
    for (server, expected) in [
        (0, Flaw::ServerRange),
        (6, Flaw::ServerRange),
        (33, Flaw::ServerRange),
        (255, Flaw::ServerRange),
        (1, Flaw::ServerTwice),
    ] {
        let mut other = list.clone();
        other[3].server = server;
        assert_eq!(flaw(&other, 5, 1), expected);
    }
    assert_eq!(flaw(&list, 4, 1), Flaw::Servers);
    for (n, b) in [(33, 0), (0, 0), (32, 8), (5, 0x4000_0000), (u32::MAX, 0)] {
        assert_eq!(flaw(&list, n, b), Flaw::Servers);
    }
    assert_eq!(flaw(&list, 32, 7), Flaw::TooFewAnswers);
    assert_eq!(flaw(&list[1..], 5, 1), Flaw::TooFewAnswers);
    assert_eq!(flaw(&[], 1, 0), Flaw::TooFewAnswers);
    let largest = Err(Reason::Malformed(Flaw::LargestB));
    for (b, most) in [(1, 0), (0, 2), (1, 2), (0, 0x4000_0000), (0, u32::MAX)] {
        assert_eq!(second(&list, 5, b, most), largest, "{b} {most}");
    }
    assert_eq!(second(&list, 5, 0, 1), Ok(NEW));
}

#[test]
fn other_lengths_are_1() {
    let list = bytes(&answers(&[NEW; 4]));
    for length in [0, 11, 13] {
        let mut entry = vec![0xff; length];
        assert_eq!(vouch(&list, 5, 1, &mut entry), Err(Reason::EntryLength));
        assert_eq!(vouch(&list, 0, 9, &mut entry), Err(Reason::EntryLength));
        let answer = vouch_threshold(&list, 5, 1, 9, &mut entry);
        assert_eq!(answer, Err(Reason::EntryLength));
    }
    let mut entry = [0xff; ENTRY_SIZE];
    assert_eq!(
        vouch(&list[1..], 5, 1, &mut entry),
        Err(Reason::AnswersLength)
    );
}

#[test]
fn twenty_thousand_lists() {
    let mut draws = Draws::new(41);
    let (mut ones, mut twos) = ([0u32; 3], [0u32; 3]);
    for _ in 0..20_000 {
        let list = list(&mut draws);
        let place = |answer: &Result<Entry, Reason>| match answer {
            Ok(_) => 0,
            Err(Reason::NotVouched) => 1,
            Err(_) => 2,
        };
        let one = first(&list.answers, list.n, list.b);
        let two = second(&list.answers, list.n, list.b, list.largest);
        ones[place(&one)] += 1;
        twos[place(&two)] += 1;
        if let (Ok(two), Ok(one)) = (two, one) {
            // What more servers vouch for is among what fewer do.
            assert!(two.stamp() <= one.stamp());
        }
    }
    assert!(
        ones.iter().chain(&twos).all(|count| *count >= 50),
        "{ones:?} {twos:?}"
    );
}

/// What the request promises of the first choice, on drawn worlds of liars.
#[test]
fn a_write_that_a_quorum_took_is_chosen() {
    let mut draws = Draws::new(42);
    for _ in 0..20_000 {
        let n = draws.between(1, 32) as u32;
        let b = draws.below((n as usize - 1) / 4 + 1) as u32;
        let q = quorum(n, b) as usize;
        let lies = draws.below(b as usize + 1);
        let liars = draws.bits(lies, n as usize);
        let took = draws.bits(draws.clone().between(q, n as usize), n as usize);
        let asked = draws.bits(draws.clone().between(q, n as usize), n as usize);
        let write = Entry::new(5, 3, draws.below(3) as u32);
        let lie = Entry::new(draws.between(4, 6) as u32, 3, draws.below(3) as u32);
        let list: Vec<Answer> = (1..=n as u8)
            .filter(|server| asked >> (server - 1) & 1 == 1)
            .map(|server| {
                let entry = if liars >> (server - 1) & 1 == 1 {
                    // All tell one lie, or each its own.
                    if draws.chance(70) {
                        lie
                    } else {
                        Entry::new(9, server % 17, 0)
                    }
                } else if took >> (server - 1) & 1 == 1 {
                    write
                } else {
                    Entry::new(draws.below(5) as u32, draws.below(17) as u8, 7)
                };
                Answer::new(server, entry)
            })
            .collect();
        assert_eq!(first(&list, n, b), Ok(write), "n {n}, b {b}");
    }
}
