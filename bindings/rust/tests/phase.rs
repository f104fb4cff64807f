//! The answers to a phase through the safe functions.

use zemawulo::bytes::{answer, open, ANSWER_CALL, ENTRY, PHASE};
use zemawulo::{Entry, Refusal};

fn entry(count: u32, writer: u8, value: u32) -> [u8; ENTRY] {
    Entry::new(count, writer, value).to_bytes()
}

fn given(server: u8, request: u8, entry: &[u8]) -> Vec<u8> {
    let head = [5, server, 1, 0, request, 0, 0, 0];
    let view = [0b1111, 0, 0, 0, 1, 0, 0, 0];
    [&head[..], entry, &view].concat()
}

#[test]
fn answers_to_a_phase() {
    let mut phase = [0xff; PHASE];
    open(&mut phase, 1, 0, 9).unwrap();
    assert_eq!(phase[..4], [1, 0, 9, 0]);
    assert!(phase[4..].iter().all(|byte| *byte == 0));
    let (old, young) = (entry(1, 1, 7), entry(2, 1, 8));
    let mut chosen = [0xff; ENTRY];
    // Server 1 answers twice; the third server closes the phase.
    for (server, shown) in [(1, old), (1, old), (2, young)] {
        let call = given(server, 9, &shown);
        assert_eq!(answer(&mut phase, &call, &mut chosen), Ok(0));
    }
    assert_eq!(chosen, [0xff; ENTRY]);
    assert_eq!(answer(&mut phase, &given(3, 9, &old), &mut chosen), Ok(1));
    assert_eq!(chosen, young);
    assert_eq!(phase[..4], [0; 4]);
}

#[test]
fn a_refused_answer_leaves_every_byte() {
    let mut phase = [0; PHASE];
    open(&mut phase, 1, 0, 9).unwrap();
    let before = phase;
    let (shown, mut chosen) = (entry(1, 1, 7), [0xff; ENTRY]);
    let call = given(1, 9, &shown);
    let start = [&[4, 0, 1, 0, 0, 0, 0, 0], &call[8..]].concat();
    let mut one_fault_too_many = call.clone();
    one_fault_too_many[24] = 2;
    for (call, refusal) in [
        (call[..ANSWER_CALL - 1].to_vec(), Refusal::Length),
        (given(33, 9, &shown), Refusal::Range),
        (start, Refusal::NoMessage),
        (given(1, 8, &shown), Refusal::NoRule),
        (one_fault_too_many, Refusal::Size),
    ] {
        assert_eq!(answer(&mut phase, &call, &mut chosen), Err(refusal));
        assert!(phase == before && chosen == [0xff; ENTRY]);
    }
    assert_eq!(
        answer(&mut phase, &call, &mut [0; ENTRY + 1]),
        Err(Refusal::Length)
    );
    assert_eq!(open(&mut phase, 3, 0, 9), Err(Refusal::Range));
    assert_eq!(open(&mut phase[1..], 1, 0, 9), Err(Refusal::Length));
    assert!(phase == before);
}
