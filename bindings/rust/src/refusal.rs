//! Why a call was refused.

use std::error::Error;
use std::fmt;

/// Why a call was refused. A refusal changes no byte, but for what a replay did
/// before its stop and the fresh world that [`Refusal::NoRefusal`] of a
/// shortening leaves.
///
/// ```
/// use zemawulo::{quorum, Refusal};
///
/// let refusal = quorum(3, 1, 0).unwrap_err();
/// assert_eq!(refusal, Refusal::Size);
/// assert_eq!(refusal.number(), 8);
/// assert_eq!(
///     refusal.to_string(),
///     "refusal 8: the size rule is broken (1 to 32 servers, at least 3f+1; r is 0 or 2f+1 to half of n+f+1), or view 32 is the newest"
/// );
/// ```
#[derive(Clone, Copy, Debug, PartialEq, Eq, Hash)]
#[non_exhaustive]
pub enum Refusal {
    /// 1: a buffer of wrong length.
    Length,
    /// 2: no image of a world.
    Unreadable,
    /// 3: unknown kind, a field out of range or an unused one set.
    Range,
    /// 4: the client is not idle, or the newest view is being ended.
    Busy,
    /// 5: no such message, or of the wrong kind.
    NoMessage,
    /// 6: the server is faulty, or is not.
    Faulty,
    /// 7: the rule does not apply.
    NoRule,
    /// 8: size rule broken, a read size outside its bounds, or no view is left.
    Size,
    /// 9: the server lacks that key.
    NoKey,
    /// 10: all message numbers are used.
    Full,
    /// 11: the write would need too large a count.
    Count,
    /// 12: the client is idle.
    Idle,
    /// 13: no order of the log exists.
    NoOrder,
    /// 14: a log or a list of answers that breaks its rules.
    Malformed,
    /// 15: the replay stops on no refusal.
    NoRefusal,
    /// 16: no entry qualifies.
    Unvouched,
    /// A number that this crate has no name for: the archive that it is linked
    /// with is a later one.
    Other(u8),
}

/// Each refusal with its words; the first has number 1.
const NAMED: [(Refusal, &str); 16] = [
    (Refusal::Length, "a file, record or buffer has the wrong length"),
    (Refusal::Unreadable, "the bytes are no image of a world"),
    (
        Refusal::Range,
        "unknown kind, a field out of its range, or a field set that this kind does not use",
    ),
    (
        Refusal::Busy,
        "the client has an operation open, or the newest view is being ended",
    ),
    (
        Refusal::NoMessage,
        "there is no such message, or it is of the wrong kind for this step",
    ),
    (
        Refusal::Faulty,
        "the server is faulty and the step needs a correct one, or the other way round",
    ),
    (
        Refusal::NoRule,
        "the rule does not apply: the server has no key for it, the answer was taken, nothing waits for it, or no view is being ended",
    ),
    (
        Refusal::Size,
        "the size rule is broken (1 to 32 servers, at least 3f+1; r is 0 or 2f+1 to half of n+f+1), or view 32 is the newest",
    ),
    (Refusal::NoKey, "the server does not hold the key of that view"),
    (Refusal::Full, "all 1,023 message numbers are used"),
    (
        Refusal::Count,
        "the write would need a count above 4,294,967,295",
    ),
    (Refusal::Idle, "the client has no operation open"),
    (Refusal::NoOrder, "no order of this log exists"),
    (
        Refusal::Malformed,
        "the log or list breaks its rules: a field out of range, a number or stamp twice, too many lines, too few answers",
    ),
    (
        Refusal::NoRefusal,
        "the replay meets no refusal, so there is nothing to shorten",
    ),
    (Refusal::Unvouched, "no entry is shown by enough servers"),
];

impl Refusal {
    /// The refusal of a number; 0 is none.
    pub fn from_number(number: u8) -> Option<Refusal> {
        let place = usize::from(number).checked_sub(1)?;
        let named = NAMED.get(place).map(|(refusal, _)| *refusal);
        Some(named.unwrap_or(Refusal::Other(number)))
    }

    fn place(self) -> Option<usize> {
        NAMED.iter().position(|(refusal, _)| *refusal == self)
    }

    /// Its number, as `zemawulo.h` has it.
    pub fn number(self) -> u8 {
        match (self, self.place()) {
            (Refusal::Other(number), _) => number,
            (_, Some(place)) => place as u8 + 1,
            (_, None) => 0,
        }
    }

    /// What it says, in plain words.
    pub fn words(self) -> &'static str {
        match self.place().and_then(|place| NAMED.get(place)) {
            Some((_, words)) => words,
            None => "a refusal that this version has no words for",
        }
    }

    /// All that have a name, from 1 on.
    pub fn all() -> impl Iterator<Item = Refusal> {
        NAMED.iter().map(|(refusal, _)| *refusal)
    }
}

impl fmt::Display for Refusal {
    fn fmt(&self, f: &mut fmt::Formatter<'_>) -> fmt::Result {
        write!(f, "refusal {}: {}", self.number(), self.words())
    }
}

impl Error for Refusal {}
