//! Steps, and the record that makes a world.

use crate::bytes::STEP;
use crate::numbers::{record, u16_at, u32_at, u8_at};
use crate::Numbers;

/// One step of a world. Each record of 12 bytes is exactly one `Step`, so that
/// reading and writing lose nothing.
///
/// ```
/// use zemawulo::{Numbers, Step};
///
/// let step = Step::Write { client: 1, value: 7 };
/// assert_eq!(step.to_bytes(), [1, 1, 0, 0, 0, 0, 0, 0, 7, 0, 0, 0]);
/// assert_eq!(Step::from_bytes([1, 1, 0, 0, 0, 0, 0, 0, 7, 0, 0, 0]), step);
/// // A field that a write does not use is set.
/// let odd = [1, 1, 9, 0, 0, 0, 0, 0, 7, 0, 0, 0];
/// assert_eq!(Step::from_bytes(odd), Step::Raw(odd));
/// // The administrator restarts, and the pending view stays as it is.
/// let restart = Step::Restart { members: Numbers::default(), f: 0, r: 0 };
/// assert_eq!(restart.to_bytes(), [9, 0, 0, 0, 0, 0, 0, 0, 0, 0, 0, 0]);
/// ```
#[derive(Clone, Copy, Debug, PartialEq, Eq, Hash)]
pub enum Step {
    /// 1: a client begins to write a value.
    Write {
        /// The client, 1 to 16.
        client: u8,
        /// What it files.
        value: u32,
    },
    /// 2: a client begins to read.
    Read {
        /// The client, 1 to 16.
        client: u8,
    },
    /// 3: a request or START reaches a server.
    Deliver {
        /// The server, 1 to 32.
        server: u8,
        /// The message's number.
        message: u16,
    },
    /// 4: an answer is taken by whom it is for.
    Take {
        /// The answer's number.
        message: u16,
    },
    /// 5: a server turns faulty.
    Fault {
        /// The server, 1 to 32.
        server: u8,
    },
    /// 6: a faulty server answers as it likes.
    FalseAnswer {
        /// The server, 1 to 32.
        server: u8,
        /// The view that it shows, whose key it holds.
        view: u8,
        /// The request that it answers.
        message: u16,
        /// The WRITE whose entry it shows, or 0 for the empty entry.
        source: u16,
    },
    /// 7: the administrator calls a new view.
    NewView {
        /// The servers of the new view.
        members: Numbers,
        /// Its threshold.
        f: u8,
        /// Its read size, 0 for a quorum.
        r: u8,
    },
    /// 8: a client gives its open operation up.
    GiveUp {
        /// The client, 1 to 16.
        client: u8,
    },
    /// 9: the administrator restarted while it ends a view: no answer to END is
    /// taken any more. It names the pending view anew, or leaves it as it is.
    Restart {
        /// The servers of the pending view, or none: it stays, and then `f` and
        /// `r` are 0, else 3.
        members: Numbers,
        /// Its threshold.
        f: u8,
        /// Its read size, 0 for a quorum.
        r: u8,
    },
    /// Any other record: an unknown kind, or a field set that its kind does not
    /// use. Refused with 3.
    Raw([u8; STEP]),
}

/// The fields of a step's record.
#[derive(Default)]
struct Fields {
    kind: u8,
    who: u8,
    view: u8,
    f: u8,
    message: u16,
    source: u16,
    value: u32,
}

impl Fields {
    fn of(bytes: &[u8; STEP]) -> Fields {
        Fields {
            kind: u8_at(bytes, 0),
            who: u8_at(bytes, 1),
            view: u8_at(bytes, 2),
            f: u8_at(bytes, 3),
            message: u16_at(bytes, 4),
            source: u16_at(bytes, 6),
            value: u32_at(bytes, 8),
        }
    }

    fn bytes(&self) -> [u8; STEP] {
        let first = [self.kind, self.who, self.view, self.f];
        let (message, source) = (self.message.to_le_bytes(), self.source.to_le_bytes());
        record(&[&first, &message, &source, &self.value.to_le_bytes()])
    }
}

impl Step {
    /// The step of a record.
    pub fn from_bytes(bytes: [u8; STEP]) -> Step {
        let fields = Fields::of(&bytes);
        let (client, server, message) = (fields.who, fields.who, fields.message);
        let step = match fields.kind {
            1 => Step::Write {
                client,
                value: fields.value,
            },
            2 => Step::Read { client },
            3 => Step::Deliver { server, message },
            4 => Step::Take { message },
            5 => Step::Fault { server },
            6 => Step::FalseAnswer {
                server,
                view: fields.view,
                message,
                source: fields.source,
            },
            7 => Step::NewView {
                members: Numbers::from_bits(fields.value),
                f: fields.f,
                r: fields.who,
            },
            8 => Step::GiveUp { client },
            9 => Step::Restart {
                members: Numbers::from_bits(fields.value),
                f: fields.f,
                r: fields.who,
            },
            _ => return Step::Raw(bytes),
        };
        // An unused field that is set would be lost.
        match step.to_bytes() == bytes {
            true => step,
            false => Step::Raw(bytes),
        }
    }

    /// Its record.
    pub fn to_bytes(self) -> [u8; STEP] {
        let mut fields = Fields::default();
        match self {
            Step::Write { client, value } => {
                (fields.kind, fields.who, fields.value) = (1, client, value);
            }
            Step::Read { client } => (fields.kind, fields.who) = (2, client),
            Step::Deliver { server, message } => {
                (fields.kind, fields.who, fields.message) = (3, server, message);
            }
            Step::Take { message } => (fields.kind, fields.message) = (4, message),
            Step::Fault { server } => (fields.kind, fields.who) = (5, server),
            Step::FalseAnswer {
                server,
                view,
                message,
                source,
            } => {
                (fields.kind, fields.who, fields.view) = (6, server, view);
                (fields.message, fields.source) = (message, source);
            }
            Step::NewView { members, f, r } => {
                (fields.kind, fields.who) = (7, r);
                (fields.f, fields.value) = (f, members.bits());
            }
            Step::GiveUp { client } => (fields.kind, fields.who) = (8, client),
            Step::Restart { members, f, r } => {
                (fields.kind, fields.who) = (9, r);
                (fields.f, fields.value) = (f, members.bits());
            }
            Step::Raw(bytes) => return bytes,
        }
        fields.bytes()
    }

    /// A journal: the records of these steps, one after another.
    pub fn journal<'a, I: IntoIterator<Item = &'a Step>>(steps: I) -> Vec<u8> {
        steps.into_iter().flat_map(|step| step.to_bytes()).collect()
    }
}

/// What makes a fresh world: the servers of view 1, its threshold and its read
/// size. As bytes it is the first record of an input of the program.
///
/// ```
/// use zemawulo::World;
///
/// let world = World { members: [1, 2, 3, 4].into_iter().collect(), f: 1, r: 0 };
/// assert_eq!(world.to_bytes(), [0, 0, 0, 1, 0, 0, 0, 0, 15, 0, 0, 0]);
/// assert_eq!(World::from_bytes(world.to_bytes()), Some(world));
/// ```
#[derive(Clone, Copy, Debug, PartialEq, Eq, Hash)]
pub struct World {
    /// The servers of view 1.
    pub members: Numbers,
    /// Its threshold.
    pub f: u8,
    /// Its read size, 0 for a quorum.
    pub r: u8,
}

impl World {
    /// The world of a first record: kind 0, r as who, f, the member bits, all else
    /// zero.
    pub fn from_bytes(bytes: [u8; STEP]) -> Option<World> {
        let fields = Fields::of(&bytes);
        let world = World {
            members: Numbers::from_bits(fields.value),
            f: fields.f,
            r: fields.who,
        };
        (world.to_bytes() == bytes).then_some(world)
    }

    /// Its record.
    pub fn to_bytes(self) -> [u8; STEP] {
        let fields = Fields {
            who: self.r,
            f: self.f,
            value: self.members.bits(),
            ..Fields::default()
        };
        fields.bytes()
    }
}
