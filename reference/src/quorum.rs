//! The size rule of a view, and the sizes of what closes its phases.

use crate::layout::SERVERS;
use crate::refusal::Reason;

/// How many servers close a READ, and how many a WRITE or an END.
#[derive(Clone, Copy, Debug, PartialEq, Eq)]
pub struct Sizes {
    pub read: u32,
    pub write: u32,
}

/// Tests that n servers can bear f faulty ones (n is at least 1 and at least
/// 3f+1), and that r is 0, or at least 2f+1 and twice r at most n+f+1.
pub fn size_rule(n: u32, f: u32, r: u32) -> Result<(), Reason> {
    let (n, f, r) = (u64::from(n), u64::from(f), u64::from(r));
    if n < 1 || n < 3 * f + 1 {
        return Err(Reason::SizeRule);
    }
    if r != 0 && (r < 2 * f + 1 || 2 * r > n + f + 1) {
        return Err(Reason::ReadSize);
    }
    Ok(())
}

/// (n+f+1)/2, rounded up, for both where r is 0; else r, and what is left of
/// n+f+1. Meant for sizes that keep the rule.
pub fn sizes(n: u32, f: u32, r: u32) -> Sizes {
    if r == 0 {
        let quorum = (n + f + 2) / 2;
        return Sizes {
            read: quorum,
            write: quorum,
        };
    }
    Sizes {
        read: r,
        write: n + f + 1 - r,
    }
}

/// The operation: both sizes, or refusal 8.
pub fn quorum_size(n: u32, f: u32, r: u32) -> Result<Sizes, Reason> {
    if n as usize > SERVERS {
        return Err(Reason::SizeRule);
    }
    size_rule(n, f, r)?;
    Ok(sizes(n, f, r))
}

/// Both sizes in one number.
pub fn packed(sizes: Sizes) -> u64 {
    u64::from(sizes.read) + 256 * u64::from(sizes.write)
}
