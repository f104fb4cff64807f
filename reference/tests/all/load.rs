//! Request 2: a load that anyone can make again.

use std::collections::BTreeSet;

use reference::layout::STEP_SIZE;
use reference::load::{load, next_step, Xorshift};
use reference::record::Step;
use reference::refusal::Reason;

#[test]
fn the_draws_are_marsaglias() {
    let mut draws = Xorshift::new(1);
    let first: Vec<u32> = (0..4).map(|_| draws.draw()).collect();
    assert_eq!(first, [270369, 67634689, 2647435461, 307599695]);
    assert_eq!(Xorshift::new(0).draw(), 270369);
}

/// The load, without the code that makes it: each field of each kind by itself.
fn by_hand(seed: u32, steps: usize) -> Vec<Step> {
    let mut draws = Xorshift::new(seed);
    (0..steps)
        .map(|_| {
            let kind = draws.draw() % 8 + 1;
            let mut draw = |size: u32, least: u32| draws.draw() % size + least;
            match kind {
                1 => {
                    let client = draw(16, 1) as u8;
                    Step::write(client, draws.draw())
                }
                2 => Step::read(draw(16, 1) as u8),
                3 => {
                    let server = draw(32, 1) as u8;
                    Step::deliver(server, draw(1023, 1) as u16)
                }
                4 => Step::take(draw(1023, 1) as u16),
                5 => Step::fault(draw(32, 1) as u8),
                6 => {
                    let server = draw(32, 1) as u8;
                    let view = draw(32, 1) as u8;
                    let message = draw(1023, 1) as u16;
                    Step::false_answer(server, view, message, draw(1024, 0) as u16)
                }
                7 => {
                    let f = draw(4, 0) as u8;
                    Step::new_view(draws.draw(), f)
                }
                _ => Step::give_up(draw(16, 1) as u8),
            }
        })
        .collect()
}

#[test]
fn the_load_is_what_the_request_says() {
    for seed in [0, 1, 2, 7, 270369, u32::MAX] {
        let mut journal = vec![0xff; 1000 * STEP_SIZE];
        load(&mut journal, seed, 1000).unwrap();
        let expected: Vec<u8> = by_hand(seed, 1000).iter().flat_map(Step::bytes).collect();
        assert!(journal == expected, "seed {seed}");
    }
    // The first steps of seed 1: read by client 2, then server 16 lies.
    let steps = by_hand(1, 2);
    assert_eq!(steps[0], Step::read(2));
    assert_eq!((steps[1].kind, steps[1].who), (6, 16));
}

#[test]
fn every_step_passes_check_3_and_every_kind_comes() {
    for seed in 0..50 {
        let mut draws = Xorshift::new(seed);
        let mut kinds = BTreeSet::new();
        for _ in 0..1000 {
            let step = next_step(&mut draws);
            assert_eq!(step.check(), Ok(()));
            kinds.insert(step.kind);
        }
        assert_eq!(kinds, (1..=8).collect());
    }
}

#[test]
fn another_length_is_1_and_writes_nothing() {
    for (length, steps) in [(0, 1), (11, 1), (13, 1), (12, 0), (12, 357_913_942)] {
        let mut journal = vec![7; length];
        assert_eq!(load(&mut journal, 1, steps), Err(Reason::JournalLength));
        assert!(journal.iter().all(|byte| *byte == 7));
    }
    assert_eq!(load(&mut [], 1, 0), Ok(()));
}
