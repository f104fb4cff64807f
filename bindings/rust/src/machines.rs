//! The rules of one machine on its record alone, as a real machine runs them. A
//! rule that is refused leaves the record as it was.
//!
//! ```
//! use zemawulo::{Entry, Message, Refusal, Server};
//!
//! let mut server = Server::new(1, Entry::default());
//! let written = Entry::new(1, 1, 7);
//! // It keeps the larger stamp, and answers.
//! assert_eq!(server.receive(Message::write(1, written), false), Ok(true));
//! assert_eq!(server.entry(), written);
//! // END of its view takes its key, so that it does not answer again.
//! assert_eq!(server.receive(Message::end(1), false), Ok(true));
//! assert_eq!(server.receive(Message::read(1), false), Err(Refusal::NoRule));
//! ```

use crate::bytes::{self, ADMINISTRATOR, ADMINISTRATOR_CALL, CLIENT_CALL, SERVER_CALL};
use crate::numbers::{record, u16_at, u8_at};
use crate::{Client, Entry, Message, Refusal, Server, View};

impl Server {
    fn asked(&mut self, rule: u8, flag: bool, view: u8, of: Message) -> Result<bool, Refusal> {
        let head = [rule, u8::from(flag), view, 0];
        let call: [u8; SERVER_CALL] = record(&[&head, &of.to_bytes()]);
        bytes::server(&mut self.0, &call)
    }

    /// A message reaches it; `member` says whether it is in the message's view.
    /// True if it answers, with the view and entry that its record then has.
    /// Refused with 3, 5, 6 and 7.
    pub fn receive(&mut self, message: Message, member: bool) -> Result<bool, Refusal> {
        self.asked(3, member, 0, message)
    }

    /// Whether, being faulty, it may answer a request with this view; `sent` says
    /// whether what it shows is empty or was sent in a WRITE. Refused with 3, 5,
    /// 6 and 9.
    pub fn may_answer(self, request: Message, view: u8, sent: bool) -> Result<(), Refusal> {
        let mut unchanged = self;
        unchanged.asked(6, sent, view, request).map(|_| ())
    }
}

/// What closes a client's phase.
#[derive(Clone, Copy, Debug, PartialEq, Eq, Hash)]
pub struct Closing {
    /// The client's own number.
    pub client: u8,
    /// The number of the WRITE that it sends, if it sends one.
    pub number: u16,
    /// The largest entry of the answers.
    pub entry: Entry,
    /// Whether all answers of the chosen view carry it, and that view's read size
    /// is not below its write size.
    pub one: bool,
}

impl Client {
    fn asked(&mut self, rule: u8, of: Closing) -> Result<bool, Refusal> {
        let head = [rule, of.client];
        let (number, entry) = (of.number.to_le_bytes(), of.entry.to_bytes());
        let call: [u8; CLIENT_CALL] = record(&[&head, &number, &entry, &[u8::from(of.one)]]);
        bytes::client(&mut self.0, &call)
    }

    fn begin(&mut self, rule: u8, number: u16, value: u32) -> Result<(), Refusal> {
        let of = Closing {
            client: 0,
            number,
            entry: Entry::new(0, 0, value),
            one: false,
        };
        self.asked(rule, of).map(|_| ())
    }

    /// It begins to write a value; `number` is that of the READ it sends. Refused
    /// with 3 and 4.
    pub fn begin_write(&mut self, number: u16, value: u32) -> Result<(), Refusal> {
        self.begin(1, number, value)
    }

    /// It begins to read; `number` is that of the READ it sends. Refused with 3
    /// and 4.
    pub fn begin_read(&mut self, number: u16) -> Result<(), Refusal> {
        self.begin(2, number, 0)
    }

    /// Its phase closes. True if its operation is complete; else it sends WRITE
    /// with the entry of its record. Refused with 3, 7 and 11.
    pub fn close(&mut self, by: Closing) -> Result<bool, Refusal> {
        self.asked(4, by)
    }

    /// It gives its operation up. Refused with 3 and 12.
    pub fn give_up(&mut self) -> Result<(), Refusal> {
        self.begin(8, 0, 0)
    }
}

/// The administrator's record.
///
/// ```
/// use zemawulo::machines::Administrator;
/// use zemawulo::{Numbers, Refusal, View};
///
/// let mut administrator = Administrator::default();
/// let view = View::new(Numbers::from_bits(0b1111), 1, 0);
/// administrator.call(5, view)?;
/// assert_eq!(administrator.ending(), Some(5));
/// assert_eq!(administrator.call(6, view), Err(Refusal::Busy));
/// // It restarts, and END stays open.
/// administrator.restart(None)?;
/// assert_eq!(administrator.ending(), Some(5));
/// administrator.close()?;
/// assert_eq!((administrator.newest(), administrator.ending()), (2, None));
/// # Ok::<(), Refusal>(())
/// ```
#[derive(Clone, Copy, Debug, PartialEq, Eq, Hash)]
pub struct Administrator([u8; ADMINISTRATOR]);

impl Default for Administrator {
    /// View 1 is the newest.
    fn default() -> Administrator {
        Administrator([1, 0, 0, 0])
    }
}

impl Administrator {
    /// The record that these bytes spell.
    pub const fn from_bytes(bytes: [u8; ADMINISTRATOR]) -> Administrator {
        Administrator(bytes)
    }

    /// Its bytes.
    pub const fn to_bytes(self) -> [u8; ADMINISTRATOR] {
        self.0
    }

    /// The newest view.
    pub fn newest(self) -> u8 {
        u8_at(&self.0, 0)
    }

    /// The number of the END by which it is being ended.
    pub fn ending(self) -> Option<u16> {
        (u8_at(&self.0, 1) != 0).then(|| u16_at(&self.0, 2))
    }

    fn asked(&mut self, rule: u8, number: u16, view: &[u8]) -> Result<(), Refusal> {
        let number = number.to_le_bytes();
        let call: [u8; ADMINISTRATOR_CALL] = record(&[&[rule, 0], &number, view]);
        bytes::administrator(&mut self.0, &call)
    }

    /// It calls the view after the newest; `number` is that of the END it sends.
    /// Refused with 3, 4 and 8.
    pub fn call(&mut self, number: u16, view: View) -> Result<(), Refusal> {
        self.asked(7, number, &view.to_bytes())
    }

    /// It restarted before END closed: no answer is taken any more, and the
    /// record stays. `view` is the pending view from now on, or none to leave it
    /// as it is. Refused with 3, 7 (START has been sent, or no END ever was) and 8.
    pub fn restart(&mut self, view: Option<View>) -> Result<(), Refusal> {
        match view {
            Some(view) => self.asked(9, 0, &view.to_bytes()),
            None => self.asked(9, 0, &[]),
        }
    }

    /// END closes. Refused with 3 and 7.
    pub fn close(&mut self) -> Result<(), Refusal> {
        self.asked(4, 0, &[])
    }
}
