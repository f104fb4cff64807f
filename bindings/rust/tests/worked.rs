//! The worked session, the marked sizes and each machine's rules through the
//! safe functions.

use zemawulo::bytes::{
    administrator, client, fresh, premise, quorum, replay, resume, server, step, Replayed, Sizes,
    CLIENT, IMAGE, STEP,
};
use zemawulo::Refusal;

fn step_bytes(kind: u8, who: u8, message: u16, value: u32) -> [u8; 12] {
    let mut bytes = [0; 12];
    bytes[0] = kind;
    bytes[1] = who;
    bytes[4..6].copy_from_slice(&message.to_le_bytes());
    bytes[8..].copy_from_slice(&value.to_le_bytes());
    bytes
}

/// The steps of document 01's worked session that are accepted: the read ends in
/// one exchange.
fn worked() -> Vec<[u8; 12]> {
    let mut steps = vec![step_bytes(1, 1, 0, 7)];
    for request in [1, 3] {
        steps.push(step_bytes(3, 1, request, 0));
        steps.push(step_bytes(4, 0, request + 1, 0));
    }
    steps.push(step_bytes(2, 2, 0, 0));
    steps.push(step_bytes(3, 1, 5, 0));
    steps.push(step_bytes(4, 0, 6, 0));
    steps
}

fn entry(count: u32, writer: u8, value: u32) -> [u8; 12] {
    let mut bytes = [0; 12];
    bytes[..4].copy_from_slice(&count.to_le_bytes());
    bytes[4] = writer;
    bytes[8..].copy_from_slice(&value.to_le_bytes());
    bytes
}

#[test]
fn worked_session_step_by_step() {
    let mut image = vec![0; IMAGE];
    fresh(&mut image, 1, 0, 0).unwrap();
    let mut completed = Vec::new();
    for bytes in worked() {
        if let Some(number) = step(&mut image, &bytes).unwrap() {
            let at = 944 + CLIENT * (usize::from(number) - 1);
            completed.push((number, image[at + 1], image[at + 4..at + 16].to_vec()));
        }
    }
    let result = entry(1, 1, 7).to_vec();
    assert_eq!(completed, [(1, 1, result.clone()), (2, 2, result)]);
    assert_eq!(premise(&image), Ok(true));
}

#[test]
fn replay_gives_the_same_image_and_stops_where_it_must() {
    let mut one_by_one = vec![0; IMAGE];
    fresh(&mut one_by_one, 1, 0, 0).unwrap();
    for bytes in worked() {
        step(&mut one_by_one, &bytes).unwrap();
    }
    let mut journal: Vec<u8> = worked().concat();
    let mut image = vec![0; IMAGE];
    fresh(&mut image, 1, 0, 0).unwrap();
    let all = Replayed {
        steps: 8,
        stop: None,
    };
    assert_eq!(replay(&mut image, &journal), all);
    assert_eq!(image, one_by_one);

    fresh(&mut image, 1, 0, 0).unwrap();
    journal.extend_from_slice(&step_bytes(4, 0, 2, 0));
    let stopped = Replayed {
        steps: 8,
        stop: Some(Refusal::NoRule),
    };
    assert_eq!(replay(&mut image, &journal), stopped);
    assert_eq!(image, one_by_one);
    journal.pop();
    let uneven = Replayed {
        steps: 0,
        stop: Some(Refusal::Length),
    };
    assert_eq!(replay(&mut image, &journal), uneven);
}

#[test]
fn the_rest_of_a_journal_leads_to_the_same_end() {
    let journal: Vec<u8> = worked().concat();
    let mut whole = vec![0; IMAGE];
    fresh(&mut whole, 1, 0, 0).unwrap();
    replay(&mut whole, &journal);
    for done in 0..=8 {
        let mut image = vec![0; IMAGE];
        fresh(&mut image, 1, 0, 0).unwrap();
        replay(&mut image, &journal[..done * STEP]);
        let rest = Replayed {
            steps: 8 - done as u64,
            stop: None,
        };
        assert_eq!(resume(&mut image, &journal, done as u64), rest);
        assert_eq!(image, whole);
    }
    let first_again = Replayed {
        steps: 0,
        stop: Some(Refusal::Busy),
    };
    let mut image = vec![0; IMAGE];
    fresh(&mut image, 1, 0, 0).unwrap();
    replay(&mut image, &journal[..STEP]);
    assert_eq!(resume(&mut image, &journal, 0), first_again);
    let fewer = Replayed {
        steps: 0,
        stop: Some(Refusal::Length),
    };
    for steps in [9, u64::MAX] {
        assert_eq!(resume(&mut whole, &journal, steps), fewer);
    }
    assert_eq!(resume(&mut whole, &journal[1..], 0), fewer);
    assert_eq!(resume(&mut whole[1..], &journal, 8), fewer);
}

#[test]
fn marked_sizes() {
    let marked = [
        (1, 0, 1),
        (2, 0, 2),
        (3, 0, 2),
        (4, 1, 3),
        (5, 1, 4),
        (6, 1, 4),
        (7, 2, 5),
        (10, 3, 7),
        (32, 10, 22),
    ];
    for (n, f, size) in marked {
        let sizes = Sizes {
            read: size,
            write: size,
        };
        assert_eq!(quorum(n, f, 0), Ok(sizes));
    }
    for (n, f) in [(0, 0), (3, 1), (32, 11), (33, 0), (32, u32::MAX)] {
        assert_eq!(quorum(n, f, 0), Err(Refusal::Size));
    }
}

#[test]
fn permitted_read_sizes_of_ten_servers() {
    for r in 1..300 {
        let sizes = (3..=6).contains(&r).then(|| Sizes {
            read: r,
            write: 12 - r,
        });
        assert_eq!(quorum(10, 1, r), sizes.ok_or(Refusal::Size), "{r}");
    }
    let mut image = vec![7; IMAGE];
    assert_eq!(fresh(&mut image, 1023, 1, 2), Err(Refusal::Size));
    assert_eq!(fresh(&mut image, 1023, 1, 7), Err(Refusal::Size));
    assert!(image.iter().all(|&byte| byte == 7));
    assert_eq!(fresh(&mut image, 1023, 1, 3), Ok(()));
    assert_eq!(premise(&image), Ok(true));
    // A read size outside its bounds makes the image unreadable.
    image[21] = 7;
    assert_eq!(premise(&image), Err(Refusal::Unreadable));
}

#[test]
fn refusals_change_no_byte() {
    let mut image = vec![7; IMAGE];
    assert_eq!(fresh(&mut image, 0, 0, 0), Err(Refusal::Size));
    assert_eq!(fresh(&mut image[1..], 1, 0, 0), Err(Refusal::Length));
    assert_eq!(step(&mut image, &[0; 12]), Err(Refusal::Unreadable));
    assert_eq!(step(&mut image, &[0; 11]), Err(Refusal::Length));
    assert_eq!(premise(&image), Err(Refusal::Unreadable));
    assert_eq!(premise(&[]), Err(Refusal::Length));
    assert!(image.iter().all(|&byte| byte == 7));
}

/// What is asked of a server: the rule, a flag, a view, and a message.
fn asked(rule: u8, flag: u8, view: u8, message: [u8; 8], entry: [u8; 12]) -> Vec<u8> {
    [&[rule, flag, view, 0][..], &message, &entry].concat()
}

#[test]
fn one_server() {
    let none = entry(0, 0, 0);
    let mut record = [&[1, 0, 0, 0, 1, 0, 0, 0][..], &none].concat();
    let written = entry(1, 1, 7);
    let write = asked(3, 0, 0, [2, 1, 0, 0, 0, 0, 0, 0], written);
    assert_eq!(server(&mut record, &write), Ok(true));
    assert_eq!(&record[8..], &written);
    let end = asked(3, 0, 0, [3, 0, 1, 0, 0, 0, 0, 0], none);
    assert_eq!(server(&mut record, &end), Ok(true));
    assert_eq!(&record[..8], &[1, 0, 0, 0, 0, 0, 0, 0]);
    let before = record.clone();
    assert_eq!(server(&mut record, &end), Err(Refusal::NoRule));
    let start = [4, 0, 2, 0, 0, 0, 0, 0];
    assert_eq!(
        server(&mut record, &asked(3, 0, 0, start, none)),
        Err(Refusal::NoRule)
    );
    assert_eq!(
        server(&mut record, &asked(3, 2, 0, start, none)),
        Err(Refusal::Range)
    );
    assert_eq!(
        server(&mut record, &asked(3, 1, 1, start, none)),
        Err(Refusal::Range)
    );
    assert_eq!(server(&mut record[1..], &end), Err(Refusal::Length));
    assert_eq!(server(&mut record, &end[1..]), Err(Refusal::Length));
    assert_eq!(record, before);
    assert_eq!(server(&mut record, &asked(3, 1, 0, start, none)), Ok(false));
    assert_eq!(&record[..8], &[2, 0, 0, 0, 2, 0, 0, 0]);
    assert_eq!(&record[8..], &written);
}

#[test]
fn one_faulty_server() {
    let none = entry(0, 0, 0);
    let mut record = [&[1, 1, 0, 0, 1, 0, 0, 0][..], &none].concat();
    let before = record.clone();
    let read = [1, 1, 0, 0, 0, 0, 0, 0];
    assert_eq!(
        server(&mut record, &asked(3, 0, 0, read, none)),
        Err(Refusal::Faulty)
    );
    assert_eq!(server(&mut record, &asked(6, 1, 1, read, none)), Ok(false));
    assert_eq!(
        server(&mut record, &asked(6, 0, 1, read, none)),
        Err(Refusal::NoMessage)
    );
    assert_eq!(
        server(&mut record, &asked(6, 1, 2, read, none)),
        Err(Refusal::NoKey)
    );
    assert_eq!(
        server(&mut record, &asked(6, 1, 0, read, none)),
        Err(Refusal::Range)
    );
    assert_eq!(
        server(&mut record, &asked(5, 1, 1, read, none)),
        Err(Refusal::Range)
    );
    assert_eq!(record, before);
}

/// A client's record: phase, kind, request, entry, and the largest own count.
fn record(phase: u8, kind: u8, request: u8, entry: [u8; 12], given: u32) -> Vec<u8> {
    [&[phase, kind, request, 0][..], &entry, &given.to_le_bytes()].concat()
}

/// What is asked of a client: rule, client, number, entry, and whether all answers
/// carry it.
fn asked_of(rule: u8, who: u8, number: u8, entry: [u8; 12], one: u8) -> Vec<u8> {
    [&[rule, who, number, 0][..], &entry, &[one]].concat()
}

#[test]
fn one_client() {
    let none = entry(0, 0, 0);
    let mut one = vec![0; CLIENT];
    let write = asked_of(1, 0, 1, entry(0, 0, 7), 0);
    assert_eq!(client(&mut one, &write), Ok(false));
    assert_eq!(one, record(1, 1, 1, entry(0, 0, 7), 0));
    assert_eq!(client(&mut one, &write), Err(Refusal::Busy));
    // A write writes, whether its answers carry one entry or not.
    let close = asked_of(4, 3, 2, entry(5, 2, 9), 1);
    assert_eq!(client(&mut one, &close), Ok(false));
    assert_eq!(one, record(2, 1, 2, entry(6, 3, 7), 6));
    assert_eq!(client(&mut one, &close), Ok(true));
    assert_eq!(one, record(0, 1, 0, entry(6, 3, 7), 6));
    assert_eq!(client(&mut one, &close), Err(Refusal::NoRule));
    let read = asked_of(2, 0, 9, none, 0);
    assert_eq!(client(&mut one, &read), Ok(false));
    let full = asked_of(4, 3, 2, entry(u32::MAX, 2, 9), 0);
    assert_eq!(client(&mut one, &full), Ok(false));
    let mut writer = record(1, 1, 1, entry(0, 0, 7), 0);
    assert_eq!(client(&mut writer, &full), Err(Refusal::Count));
    assert_eq!(
        client(&mut one, &asked_of(2, 1, 9, none, 0)),
        Err(Refusal::Range)
    );
}

#[test]
fn one_client_reads_in_one_exchange() {
    let reading = record(1, 2, 9, entry(0, 0, 0), 6);
    let mut one = reading.clone();
    assert_eq!(
        client(&mut one, &asked_of(4, 3, 0, entry(5, 2, 9), 1)),
        Ok(true)
    );
    assert_eq!(one, record(0, 2, 0, entry(5, 2, 9), 6));
    one = reading.clone();
    assert_eq!(
        client(&mut one, &asked_of(4, 3, 11, entry(5, 2, 9), 0)),
        Ok(false)
    );
    assert_eq!(one, record(2, 2, 11, entry(5, 2, 9), 6));
    // Without a number to write back, a flag of 2, and a flag where nothing closes.
    for asked in [
        asked_of(4, 3, 0, entry(5, 2, 9), 0),
        asked_of(4, 3, 11, entry(5, 2, 9), 2),
        asked_of(8, 0, 0, entry(0, 0, 0), 1),
    ] {
        one = reading.clone();
        assert_eq!(client(&mut one, &asked), Err(Refusal::Range));
        assert_eq!(one, reading);
    }
}

#[test]
fn one_client_gives_up() {
    let none = entry(0, 0, 0);
    let give_up = asked_of(8, 0, 0, none, 0);
    let mut one = record(2, 1, 2, entry(6, 3, 7), 6);
    assert_eq!(
        client(&mut one, &asked_of(8, 3, 0, none, 0)),
        Err(Refusal::Range)
    );
    assert_eq!(client(&mut one, &give_up), Ok(false));
    assert_eq!(one, record(0, 0, 0, none, 6));
    assert_eq!(client(&mut one, &give_up), Err(Refusal::Idle));
    assert_eq!(
        client(&mut one, &asked_of(1, 0, 9, entry(0, 0, 8), 0)),
        Ok(false)
    );
    let close = asked_of(4, 3, 11, entry(5, 2, 9), 0);
    assert_eq!(client(&mut one, &close), Ok(false));
    assert_eq!(one, record(2, 1, 11, entry(7, 3, 8), 7));
    let mut last = record(1, 1, 1, entry(0, 0, 7), u32::MAX);
    assert_eq!(client(&mut last, &close), Err(Refusal::Count));
}

#[test]
fn the_administrator() {
    let mut record = [1, 0, 0, 0];
    let view = [&[7, 0, 5, 0][..], &[15, 0, 0, 0, 1, 0, 0, 0]].concat();
    let small = [&[7, 0, 5, 0][..], &[7, 0, 0, 0, 1, 0, 0, 0]].concat();
    let close = [&[4, 0, 0, 0][..], &[0; 8]].concat();
    assert_eq!(administrator(&mut record, &close), Err(Refusal::NoRule));
    assert_eq!(administrator(&mut record, &small), Err(Refusal::Size));
    assert_eq!(administrator(&mut record, &view), Ok(()));
    assert_eq!(record, [1, 1, 5, 0]);
    assert_eq!(administrator(&mut record, &view), Err(Refusal::Busy));
    // It restarts: the record stays, whatever is asked.
    let restart = |number: u8, view: [u8; 8]| [&[9, 0, number, 0][..], &view].concat();
    let none = [0; 8];
    for (asked, answer) in [
        (restart(0, none), Ok(())),
        (restart(0, [15, 0, 0, 0, 1, 0, 0, 0]), Ok(())),
        (restart(0, [15, 0, 0, 0, 0, 2, 0, 0]), Ok(())),
        (restart(5, none), Err(Refusal::Range)),
        (restart(0, [0, 0, 0, 0, 1, 0, 0, 0]), Err(Refusal::Range)),
        (restart(0, [0, 0, 0, 0, 0, 1, 0, 0]), Err(Refusal::Range)),
        (restart(0, [15, 0, 0, 0, 1, 0, 1, 0]), Err(Refusal::Range)),
        (restart(0, [7, 0, 0, 0, 1, 0, 0, 0]), Err(Refusal::Size)),
        (restart(0, [15, 0, 0, 0, 0, 3, 0, 0]), Err(Refusal::Size)),
    ] {
        assert_eq!(administrator(&mut record, &asked), answer, "{asked:?}");
        assert_eq!(record, [1, 1, 5, 0]);
    }
    assert_eq!(administrator(&mut record, &close), Ok(()));
    assert_eq!(record, [2, 0, 0, 0]);
    let started = administrator(&mut record, &restart(0, none));
    assert_eq!(started, Err(Refusal::NoRule));
    assert_eq!(administrator(&mut record, &view[1..]), Err(Refusal::Length));
    assert_eq!(administrator(&mut [1, 0, 5, 0], &view), Err(Refusal::Range));
}
