//! The answers to one request, counted by the library.

use crate::bytes::{self, ANSWER_CALL, ENTRY, PHASE};
use crate::numbers::{record, u16_at, u8_at};
use crate::{Entry, Message, Refusal, View};

/// What the answers of a phase are to.
#[derive(Clone, Copy, Debug, PartialEq, Eq, Hash)]
pub enum Asked {
    /// READ, under this number.
    Read(u16),
    /// WRITE, under this number.
    Write(u16),
    /// END of a view, under this number.
    End {
        /// The view that it ends, 1 to 31.
        view: u8,
        /// The number of END.
        request: u16,
    },
}

/// What an answer did to a phase.
#[derive(Clone, Copy, Debug, PartialEq, Eq, Hash)]
pub enum Answered {
    /// It is still open.
    Open,
    /// It is closed.
    Closed {
        /// The largest entry of the answers of the view that closed it; of equal
        /// stamps the one taken first.
        entry: Entry,
        /// Whether a read may end with it, without its WRITE: all answers of that
        /// view carry the entry, and its read size is not below its write size.
        at_once: bool,
    },
}

/// The record of the answers to one request: a client's phase, or the
/// administrator's END. It is of one size, however many answers there are.
///
/// ```
/// use zemawulo::answers::{Answered, Asked, PhaseRecord};
/// use zemawulo::{Entry, Message, Numbers, Refusal, View};
///
/// // Three of four servers close a phase. Server 1 is faulty and answers twice.
/// let view = View::new(Numbers::from_bits(0b1111), 1, 0);
/// let entry = Entry::new(1, 1, 7);
/// let mut phase = PhaseRecord::open(Asked::Read(9))?;
/// for server in [1, 1, 2] {
///     assert_eq!(phase.answer(Message::answer(server, 1, 9, entry), view), Ok(Answered::Open));
/// }
/// let last = Message::answer(3, 1, 9, entry);
/// assert_eq!(phase.answer(last, view), Ok(Answered::Closed { entry, at_once: true }));
/// // Nothing is open now.
/// assert_eq!(phase.asked(), None);
/// assert_eq!(phase.answer(last, view), Err(Refusal::NoRule));
/// # Ok::<(), Refusal>(())
/// ```
#[derive(Clone, Copy, Debug, PartialEq, Eq, Hash)]
pub struct PhaseRecord([u8; PHASE]);

impl PhaseRecord {
    /// Opens the record. Refused with 3 if a number is outside its range.
    pub fn open(asked: Asked) -> Result<PhaseRecord, Refusal> {
        let (kind, view, request) = match asked {
            Asked::Read(request) => (1, 0, request),
            Asked::Write(request) => (2, 0, request),
            Asked::End { view, request } => (3, view, request),
        };
        let mut phase = [0; PHASE];
        bytes::open(&mut phase, kind, view, request)?;
        Ok(PhaseRecord(phase))
    }

    /// The record that these bytes spell.
    pub const fn from_bytes(bytes: [u8; PHASE]) -> PhaseRecord {
        PhaseRecord(bytes)
    }

    /// Its bytes.
    pub const fn to_bytes(self) -> [u8; PHASE] {
        self.0
    }

    /// What is open, if anything is.
    pub fn asked(&self) -> Option<Asked> {
        let request = u16_at(&self.0, 2);
        match u8_at(&self.0, 0) {
            1 => Some(Asked::Read(request)),
            2 => Some(Asked::Write(request)),
            3 => Some(Asked::End {
                view: u8_at(&self.0, 1),
                request,
            }),
            _ => None,
        }
    }

    /// One answer, and the view that it is tagged with: its members, f and r. Refused with 3; with 5 if
    /// it is no answer; with 7 if it is marked as taken or is to another request;
    /// with 8 if the view breaks the size rule.
    ///
    /// ```
    /// use zemawulo::answers::{Answered, Asked, PhaseRecord};
    /// use zemawulo::{Entry, Message, Numbers, Refusal, View};
    ///
    /// // END of view 1: answers with another view count for nothing. View 2 is pending.
    /// let (view, pending) = (View::new(Numbers::from_bits(0b1), 0, 0), View::new(Numbers::from_bits(0b11), 0, 0));
    /// let entry = Entry::new(1, 1, 7);
    /// let mut phase = PhaseRecord::open(Asked::End { view: 1, request: 3 })?;
    /// assert_eq!(phase.answer(Message::answer(1, 2, 3, entry), pending), Ok(Answered::Open));
    /// let own = phase.answer(Message::answer(1, 1, 3, entry), view)?;
    /// assert_eq!(own, Answered::Closed { entry, at_once: false });
    /// # Ok::<(), Refusal>(())
    /// ```
    pub fn answer(&mut self, answer: Message, view: View) -> Result<Answered, Refusal> {
        let call: [u8; ANSWER_CALL] = record(&[&answer.to_bytes(), &view.to_bytes()]);
        let mut entry = [0; ENTRY];
        let told = bytes::answer(&mut self.0, &call, &mut entry)?;
        if told == 0 {
            return Ok(Answered::Open);
        }
        Ok(Answered::Closed {
            entry: Entry::from_bytes(entry),
            at_once: told == 2,
        })
    }
}
