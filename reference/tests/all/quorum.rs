//! The sizes of what closes a phase.

use reference::quorum::{quorum_size, Sizes};
use reference::refusal::Reason;

fn sizes(read: u32, write: u32) -> Result<Sizes, Reason> {
    Ok(Sizes { read, write })
}

#[test]
fn marked_sizes() {
    let marked = [
        (1, 0, 1),
        (2, 0, 2),
        (3, 0, 2),
        (4, 1, 3),
        (5, 1, 4),
        (6, 1, 4),
        (7, 2, 5),
        (10, 3, 7),
        (32, 10, 22),
    ];
    for (n, f, size) in marked {
        assert_eq!(quorum_size(n, f, 0), sizes(size, size), "({n}, {f})");
    }
    for (n, f) in [(0, 0), (3, 1), (32, 11)] {
        assert_eq!(quorum_size(n, f, 0), Err(Reason::SizeRule), "({n}, {f})");
    }
}

#[test]
fn permitted_read_sizes() {
    let marked: [(u32, u32, &[(u32, u32)]); 4] = [
        (4, 1, &[(3, 3)]),
        (7, 2, &[(5, 5)]),
        (10, 1, &[(3, 9), (4, 8), (5, 7), (6, 6)]),
        (32, 10, &[(21, 22)]),
    ];
    for (n, f, permitted) in marked {
        for r in 1..=255 {
            let expected = permitted.iter().find(|(read, _)| *read == r);
            let expected =
                expected.map_or(Err(Reason::ReadSize), |(read, write)| sizes(*read, *write));
            assert_eq!(quorum_size(n, f, r), expected, "({n}, {f}, {r})");
        }
    }
}

#[test]
fn sizes_outside_are_refused_without_overflow() {
    let large = [33, u32::MAX / 3, u32::MAX / 3 + 1, u32::MAX - 1, u32::MAX];
    for number in large {
        assert!(quorum_size(number, 0, 0).is_err());
        assert!(quorum_size(number, number, number).is_err());
        assert!(quorum_size(32, number, 0).is_err());
        assert!(quorum_size(32, 10, number).is_err());
    }
}

#[test]
fn a_read_and_a_write_share_a_correct_server() {
    for n in 1..=32 {
        for f in 0..=(n - 1) / 3 {
            for r in 0..=255 {
                let Ok(Sizes { read, write }) = quorum_size(n, f, r) else {
                    continue;
                };
                let what = format!("({n}, {f}, {r})");
                assert!(read + write > n + f, "{what}: a read and a write");
                assert!(2 * write > n + f, "{what}: two writes");
                assert!(read > f, "{what}: one of a read");
                assert!(read <= write && write <= n, "{what}: members enough");
                assert!(read <= n - f, "{what}: READ closes without f of them");
                assert!(r != 0 || 2 * (read - 1) <= n + f, "{what}: no larger");
            }
        }
    }
}
