//! The records of an image: views, servers, clients, messages.

use crate::bytes::{CLIENT, MESSAGE, SERVER, VIEW};
use crate::numbers::{record, u16_at, u32_at, u8_at};
use crate::{quorum, Entry, Numbers, Refusal, Sizes};

/// A view: its servers, its threshold and its read size.
///
/// ```
/// use zemawulo::{Numbers, Sizes, View};
///
/// let view = View::new(Numbers::from_bits(0b1111), 1, 0);
/// assert_eq!((view.members().len(), view.f(), view.r()), (4, 1, 0));
/// assert_eq!(view.sizes(), Ok(Sizes { read: 3, write: 3 }));
/// ```
#[derive(Clone, Copy, Debug, PartialEq, Eq, Hash)]
pub struct View([u8; VIEW]);

impl View {
    /// The view of these servers, this threshold and this read size, 0 for a
    /// quorum.
    pub fn new(members: Numbers, f: u8, r: u8) -> View {
        View(record(&[&members.bits().to_le_bytes(), &[f, r]]))
    }

    /// The view that these bytes spell.
    pub const fn from_bytes(bytes: [u8; VIEW]) -> View {
        View(bytes)
    }

    /// Its bytes.
    pub const fn to_bytes(self) -> [u8; VIEW] {
        self.0
    }

    /// Its servers.
    pub fn members(self) -> Numbers {
        Numbers::from_bits(u32_at(&self.0, 0))
    }

    /// Its threshold.
    pub fn f(self) -> u8 {
        u8_at(&self.0, 4)
    }

    /// Its read size as recorded: 0 means a quorum for everything.
    pub fn r(self) -> u8 {
        u8_at(&self.0, 5)
    }

    /// How many servers close READ in it, and how many WRITE and END. Refused
    /// with 8 if it breaks the size rule.
    pub fn sizes(self) -> Result<Sizes, Refusal> {
        quorum(self.members().len(), self.f().into(), self.r().into())
    }
}

/// A server's record. Its rules are in [`crate::machines`].
///
/// ```
/// use zemawulo::{Image, World};
///
/// let image = Image::fresh(World { members: [1].into_iter().collect(), f: 0, r: 0 })?;
/// let server = image.server(1).expect("servers 1 to 32");
/// assert_eq!((server.view(), server.faulty()), (1, false));
/// assert!(server.keys().contains(1) && server.entry().is_empty());
/// # Ok::<(), zemawulo::Refusal>(())
/// ```
#[derive(Clone, Copy, Debug, PartialEq, Eq, Hash)]
pub struct Server(pub(crate) [u8; SERVER]);

impl Server {
    /// A correct server of a view, with its key and an entry.
    pub fn new(view: u8, entry: Entry) -> Server {
        let keys = [view].into_iter().collect::<Numbers>().bits();
        Server(record(&[
            &[view, 0, 0, 0],
            &keys.to_le_bytes(),
            &entry.to_bytes(),
        ]))
    }

    /// The record that these bytes spell.
    pub const fn from_bytes(bytes: [u8; SERVER]) -> Server {
        Server(bytes)
    }

    /// Its bytes.
    pub const fn to_bytes(self) -> [u8; SERVER] {
        self.0
    }

    /// Its view, or 0 for none yet.
    pub fn view(self) -> u8 {
        u8_at(&self.0, 0)
    }

    /// Whether it is faulty.
    pub fn faulty(self) -> bool {
        u8_at(&self.0, 1) != 0
    }

    /// The views whose keys it holds.
    pub fn keys(self) -> Numbers {
        Numbers::from_bits(u32_at(&self.0, 4))
    }

    /// What it keeps.
    pub fn entry(self) -> Entry {
        Entry::at(&self.0, 8)
    }
}

/// Where a client's operation stands. An open phase names its request.
#[derive(Clone, Copy, Debug, PartialEq, Eq, Hash)]
pub enum Phase {
    /// No operation is open.
    Idle,
    /// READ was sent, under this number.
    Reading(u16),
    /// WRITE was sent, under this number.
    Writing(u16),
}

/// What an operation is.
#[derive(Clone, Copy, Debug, PartialEq, Eq, Hash)]
pub enum Kind {
    /// It files an entry.
    Write,
    /// It returns one.
    Read,
}

impl Kind {
    pub(crate) fn of(number: u8) -> Option<Kind> {
        match number {
            1 => Some(Kind::Write),
            2 => Some(Kind::Read),
            _ => None,
        }
    }

    pub(crate) fn number(self) -> u8 {
        match self {
            Kind::Write => 1,
            Kind::Read => 2,
        }
    }

    /// `W` or `R`, as the program prints it.
    pub fn letter(self) -> char {
        match self {
            Kind::Write => 'W',
            Kind::Read => 'R',
        }
    }
}

/// A client's record. Its rules are in [`crate::machines`].
///
/// ```
/// use zemawulo::{Client, Phase};
///
/// let client = Client::default();
/// assert_eq!((client.phase(), client.kind()), (Phase::Idle, None));
/// ```
#[derive(Clone, Copy, Debug, Default, PartialEq, Eq, Hash)]
pub struct Client(pub(crate) [u8; CLIENT]);

impl Client {
    /// The record that these bytes spell.
    pub const fn from_bytes(bytes: [u8; CLIENT]) -> Client {
        Client(bytes)
    }

    /// Its bytes.
    pub const fn to_bytes(self) -> [u8; CLIENT] {
        self.0
    }

    /// Where its operation stands.
    pub fn phase(self) -> Phase {
        let request = u16_at(&self.0, 2);
        match u8_at(&self.0, 0) {
            1 => Phase::Reading(request),
            2 => Phase::Writing(request),
            _ => Phase::Idle,
        }
    }

    /// What its operation is, or its last one; none before the first and after
    /// one that was given up.
    pub fn kind(self) -> Option<Kind> {
        Kind::of(u8_at(&self.0, 1))
    }

    /// Idle: the last result. Reading: a write's value. Writing: what is written.
    pub fn entry(self) -> Entry {
        Entry::at(&self.0, 4)
    }

    /// The largest count that it ever gave a write of its own.
    pub fn largest_count(self) -> u32 {
        u32_at(&self.0, 16)
    }
}

/// What a message is.
#[derive(Clone, Copy, Debug, PartialEq, Eq, Hash)]
pub enum MessageKind {
    /// 1: a client asks for entries.
    Read,
    /// 2: a client has an entry kept.
    Write,
    /// 3: the administrator ends a view.
    End,
    /// 4: the administrator starts a view.
    Start,
    /// 5: a server answers a request.
    Answer,
}

impl MessageKind {
    fn number(self) -> u8 {
        match self {
            MessageKind::Read => 1,
            MessageKind::Write => 2,
            MessageKind::End => 3,
            MessageKind::Start => 4,
            MessageKind::Answer => 5,
        }
    }

    /// Its name, as the rules write it.
    pub fn name(self) -> &'static str {
        match self {
            MessageKind::Read => "READ",
            MessageKind::Write => "WRITE",
            MessageKind::End => "END",
            MessageKind::Start => "START",
            MessageKind::Answer => "answer",
        }
    }
}

/// A message that was sent.
///
/// ```
/// use zemawulo::{Entry, Message, MessageKind};
///
/// let write = Message::write(1, Entry::new(1, 1, 7));
/// assert_eq!(write.kind(), Some(MessageKind::Write));
/// assert_eq!((write.sender(), write.entry().value()), (1, 7));
/// ```
#[derive(Clone, Copy, Debug, PartialEq, Eq, Hash)]
pub struct Message([u8; MESSAGE]);

impl Message {
    fn new(kind: MessageKind, sender: u8, view: u8, entry: Entry) -> Message {
        let head = [kind.number(), sender, view, 0, 0, 0, 0, 0];
        Message(record(&[&head, &entry.to_bytes()]))
    }

    /// READ of a client.
    pub fn read(client: u8) -> Message {
        Message::new(MessageKind::Read, client, 0, Entry::default())
    }

    /// WRITE of a client.
    pub fn write(client: u8, entry: Entry) -> Message {
        Message::new(MessageKind::Write, client, 0, entry)
    }

    /// END of a view.
    pub fn end(view: u8) -> Message {
        Message::new(MessageKind::End, 0, view, Entry::default())
    }

    /// START of a view, with the entry that it begins with.
    pub fn start(view: u8, entry: Entry) -> Message {
        Message::new(MessageKind::Start, 0, view, entry)
    }

    /// The answer of a server to the request of this number, tagged with a view.
    pub fn answer(server: u8, view: u8, request: u16, entry: Entry) -> Message {
        let [low, high] = request.to_le_bytes();
        let head = [
            MessageKind::Answer.number(),
            server,
            view,
            0,
            low,
            high,
            0,
            0,
        ];
        Message(record(&[&head, &entry.to_bytes()]))
    }

    /// The message that these bytes spell.
    pub const fn from_bytes(bytes: [u8; MESSAGE]) -> Message {
        Message(bytes)
    }

    /// Its bytes.
    pub const fn to_bytes(self) -> [u8; MESSAGE] {
        self.0
    }

    /// What it is.
    pub fn kind(self) -> Option<MessageKind> {
        match u8_at(&self.0, 0) {
            1 => Some(MessageKind::Read),
            2 => Some(MessageKind::Write),
            3 => Some(MessageKind::End),
            4 => Some(MessageKind::Start),
            5 => Some(MessageKind::Answer),
            _ => None,
        }
    }

    /// Who sent it: a client for READ and WRITE, a server for an answer, 0 for
    /// the administrator.
    pub fn sender(self) -> u8 {
        u8_at(&self.0, 1)
    }

    /// Its view; 0 for READ and WRITE.
    pub fn view(self) -> u8 {
        u8_at(&self.0, 2)
    }

    /// Whether it is an answer that was taken.
    pub fn taken(self) -> bool {
        u8_at(&self.0, 3) != 0
    }

    /// The request that it answers, or 0.
    pub fn request(self) -> u16 {
        u16_at(&self.0, 4)
    }

    /// The next link of a request's chain of taken answers, or 0.
    pub fn next(self) -> u16 {
        u16_at(&self.0, 6)
    }

    /// What it carries.
    pub fn entry(self) -> Entry {
        Entry::at(&self.0, 8)
    }
}
