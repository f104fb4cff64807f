//! The watched replay, the load, the judge, the short journal and the choice among entries without a
//! signature through the safe functions.

use zemawulo::bytes::{
    fresh, judge, load, replay, shorten, vouch, vouch_threshold, watch, ENTRY, IMAGE, LOG_LINE,
    LOG_LINES, ORDER_LINE, SHORTEN_STEPS, STEP, UNSIGNED_ANSWER,
};
use zemawulo::Refusal;

fn entry(count: u32, writer: u8, value: u32) -> [u8; ENTRY] {
    let mut bytes = [0; ENTRY];
    bytes[..4].copy_from_slice(&count.to_le_bytes());
    bytes[4] = writer;
    bytes[8..].copy_from_slice(&value.to_le_bytes());
    bytes
}

#[test]
fn a_watched_replay() {
    let mut image = [0; IMAGE];
    fresh(&mut image, 0b1111, 1, 0).unwrap();
    let fault = |server| [5, server, 0, 0, 0, 0, 0, 0, 0, 0, 0, 0];
    let journal = [fault(1), fault(2), fault(3), fault(3)].concat();
    let (replayed, first) = watch(&mut image, &journal);
    assert_eq!((replayed.steps, replayed.stop), (3, Some(Refusal::Faulty)));
    assert_eq!(first, Some(2));
    // The byte of view 1 counts its faulty key holders; another is unreadable.
    assert_eq!(image[272], 3);
    image[272] = 4;
    let (replayed, first) = watch(&mut image, &journal);
    assert_eq!(
        (replayed.steps, replayed.stop),
        (0, Some(Refusal::Unreadable))
    );
    assert_eq!(first, None);
}

#[test]
fn the_first_step_of_a_load() {
    let mut first = [7; STEP];
    load(&mut first, 1, 1).unwrap();
    // A read of client 2.
    assert_eq!(first, [2, 2, 0, 0, 0, 0, 0, 0, 0, 0, 0, 0]);
    let mut two = [7; 2 * STEP];
    load(&mut two, 0, 2).unwrap();
    assert_eq!(two[..STEP], first);
    // A false answer of server 16 with view 18 to message 623, source 794.
    assert_eq!(two[STEP..], [6, 16, 18, 0, 111, 2, 26, 3, 0, 0, 0, 0]);
    let before = two;
    assert_eq!(load(&mut two, 1, 1), Err(Refusal::Length));
    assert_eq!(two, before);
    assert_eq!(load(&mut [], 5, 0), Ok(()));
}

fn line(begin: u16, end: u16, kind: u8, entry: [u8; ENTRY]) -> Vec<u8> {
    let (begin, end) = (begin.to_le_bytes(), end.to_le_bytes());
    [&begin[..], &end, &[kind, 0, 0, 0], &entry].concat()
}

#[test]
fn logs() {
    assert_eq!(judge(&[], &mut []), Ok(0));
    let read = line(3, 4, 2, entry(1, 1, 7));
    let write = line(1, 2, 1, entry(1, 1, 7));
    let log = [read, write].concat();
    let mut order = [9; 2 * ORDER_LINE];
    assert_eq!(judge(&log, &mut order), Ok(2));
    assert_eq!(order, [2, 0, 1, 0]);
    // The read ends before the write begins.
    let early = [line(1, 2, 2, entry(1, 1, 7)), line(3, 4, 1, entry(1, 1, 7))].concat();
    assert_eq!(judge(&early, &mut order), Err(Refusal::NoOrder));
    let twice = [line(1, 2, 1, entry(1, 1, 7)), line(2, 3, 1, entry(2, 1, 7))].concat();
    assert_eq!(judge(&twice, &mut order), Err(Refusal::Malformed));
    assert_eq!(judge(&log[1..], &mut order), Err(Refusal::Length));
    assert_eq!(judge(&log[LOG_LINE..], &mut order), Err(Refusal::Length));
    assert_eq!(order, [2, 0, 1, 0]);
    let long = vec![0; (LOG_LINES + 1) * LOG_LINE];
    let mut orders = vec![0; (LOG_LINES + 1) * ORDER_LINE];
    assert_eq!(judge(&long, &mut orders), Err(Refusal::Malformed));
}

#[test]
fn short_journals() {
    let mut image = vec![7; IMAGE];
    let give_up = [8, 1, 0, 0, 0, 0, 0, 0, 0, 0, 0, 0];
    let read = [2, 2, 0, 0, 0, 0, 0, 0, 0, 0, 0, 0];
    let journal = [read, give_up].concat();
    let mut shorter = [7; 2 * STEP];
    assert_eq!(shorten(&mut image, 1, 0, 0, &journal, &mut shorter), Ok(1));
    assert_eq!(shorter[..STEP], give_up);
    assert_eq!(shorter[STEP..], [0; STEP]);
    let mut first = vec![0; IMAGE];
    fresh(&mut first, 1, 0, 0).unwrap();
    assert_eq!(image, first);
    let stopped = replay(&mut image, &shorter[..STEP]);
    assert_eq!((stopped.steps, stopped.stop), (0, Some(Refusal::Idle)));

    let before = shorter;
    image.fill(7);
    let once = [read, [0; 12]].concat();
    assert_eq!(
        shorten(&mut image, 1, 0, 0, &once[..STEP], &mut shorter),
        Err(Refusal::Length)
    );
    assert_eq!(
        shorten(&mut image, 0, 0, 0, &once, &mut shorter),
        Err(Refusal::Size)
    );
    assert!(image.iter().all(|&byte| byte == 7));
    let mut room = [7; STEP];
    assert_eq!(
        shorten(&mut image, 1, 0, 0, &read, &mut room),
        Err(Refusal::NoRefusal)
    );
    assert_eq!(room, [7; STEP]);
    assert_eq!(image, first);
    assert_eq!(shorter, before);
    let long = vec![0; (SHORTEN_STEPS + 1) * STEP];
    let mut longer = long.clone();
    assert_eq!(
        shorten(&mut image, 1, 0, 0, &long, &mut longer),
        Err(Refusal::Length)
    );
}

fn answer(server: u8, entry: [u8; ENTRY]) -> Vec<u8> {
    [&[server, 0, 0, 0][..], &entry].concat()
}

#[test]
fn entries_without_a_signature() {
    let mut room = [9; ENTRY];
    let one = answer(1, entry(3, 2, 7));
    assert_eq!(one.len(), UNSIGNED_ANSWER);
    assert_eq!(vouch(&one, 1, 0, &mut room), Ok(()));
    assert_eq!(room, entry(3, 2, 7));
    // One of five servers lies, and four answers are enough.
    let written = entry(3, 2, 7);
    let mut list = answer(5, entry(9, 9, 9));
    for server in 1..=3 {
        list.extend(answer(server, written));
    }
    room.fill(0);
    assert_eq!(vouch(&list, 5, 1, &mut room), Ok(()));
    assert_eq!(room, written);
    room.fill(0);
    assert_eq!(vouch_threshold(&list, 5, 1, 1, &mut room), Ok(()));
    assert_eq!(room, written);
    assert_eq!(
        vouch(&list[UNSIGNED_ANSWER..], 5, 1, &mut room),
        Err(Refusal::Malformed)
    );
    assert_eq!(vouch(&list, 4, 1, &mut room), Err(Refusal::Malformed));
    assert_eq!(
        vouch_threshold(&list, 5, 1, 0, &mut room),
        Err(Refusal::Malformed)
    );
    assert_eq!(vouch(&list[1..], 5, 1, &mut room), Err(Refusal::Length));
    assert_eq!(vouch(&list, 5, 1, &mut room[1..]), Err(Refusal::Length));
    let apart: Vec<u8> = (1..=4)
        .flat_map(|s| answer(s, entry(s.into(), s, 0)))
        .collect();
    assert_eq!(vouch(&apart, 5, 1, &mut room), Err(Refusal::Unvouched));
    assert_eq!(room, written);
}
