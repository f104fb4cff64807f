//! The decoded image: plain records with the fields of the layout.
//!
//! Every byte of an image has its place here, spare bytes too, so decoding and
//! encoding lose nothing, whether the image is readable or not. Numbers of
//! views, servers and clients begin at 1; the tables begin at 0.

use crate::entry::Entry;
use crate::layout::{CLIENTS, LAST_MESSAGE, MESSAGES, SERVERS, VERSION, VIEWS};
use crate::quorum::{size_rule, sizes, Sizes};
use crate::refusal::Reason;

/// Kinds of messages.
pub mod message_kind {
    pub const READ: u8 = 1;
    pub const WRITE: u8 = 2;
    pub const END: u8 = 3;
    pub const START: u8 = 4;
    pub const ANSWER: u8 = 5;
}

/// Phases of a client.
pub mod phase {
    pub const IDLE: u8 = 0;
    pub const READING: u8 = 1;
    pub const WRITING: u8 = 2;
}

/// Kinds of a client's operation.
pub mod operation_kind {
    pub const NONE: u8 = 0;
    pub const WRITE: u8 = 1;
    pub const READ: u8 = 2;
}

#[derive(Clone, Copy, Debug, Default, PartialEq, Eq)]
pub struct Header {
    pub version: u16,
    pub used: u16,
    pub newest: u8,
    pub ending: u8,
    pub end: u16,
    pub spare: [u8; 8],
}

#[derive(Clone, Copy, Debug, Default, PartialEq, Eq)]
pub struct View {
    pub members: u32,
    pub f: u8,
    /// The read size; 0 means a quorum for everything.
    pub r: u8,
    pub spare: [u8; 2],
}

#[derive(Clone, Copy, Debug, Default, PartialEq, Eq)]
pub struct Server {
    pub view: u8,
    pub faulty: u8,
    pub spare: [u8; 2],
    pub keys: u32,
    pub entry: Entry,
}

#[derive(Clone, Copy, Debug, Default, PartialEq, Eq)]
pub struct Client {
    pub phase: u8,
    pub kind: u8,
    pub request: u16,
    pub entry: Entry,
    /// The largest count this client ever gave a write of its own.
    pub largest: u32,
}

#[derive(Clone, Copy, Debug, Default, PartialEq, Eq)]
pub struct Message {
    pub kind: u8,
    pub sender: u8,
    pub view: u8,
    pub taken: u8,
    pub request: u16,
    pub next: u16,
    pub entry: Entry,
}

impl Message {
    /// True for READ, WRITE and END, which are answered.
    pub fn asks(&self) -> bool {
        matches!(
            self.kind,
            message_kind::READ | message_kind::WRITE | message_kind::END
        )
    }
}

#[derive(Clone, Debug, PartialEq, Eq)]
pub struct World {
    pub header: Header,
    pub views: [View; VIEWS],
    /// For each view the number of faulty servers that hold its key.
    pub holders: [u8; VIEWS],
    pub servers: [Server; SERVERS],
    pub clients: [Client; CLIENTS],
    pub messages: [Message; MESSAGES],
}

/// The bit of a server among members, or of a view among keys. Number 0 has no
/// bit.
pub fn bit(number: u8) -> u32 {
    match number {
        1..=32 => 1 << (number - 1),
        _ => 0,
    }
}

impl View {
    pub fn size(&self) -> u32 {
        self.members.count_ones()
    }

    pub fn sizes(&self) -> Sizes {
        sizes(self.size(), u32::from(self.f), u32::from(self.r))
    }

    pub fn size_rule(&self) -> Result<(), Reason> {
        size_rule(self.size(), u32::from(self.f), u32::from(self.r))
    }

    pub fn has_member(&self, server: u8) -> bool {
        self.members & bit(server) != 0
    }
}

impl Server {
    pub fn is_faulty(&self) -> bool {
        self.faulty != 0
    }

    pub fn holds_key(&self, view: u8) -> bool {
        self.keys & bit(view) != 0
    }

    /// True for a server that holds the key of the view it is in.
    pub fn serves(&self) -> bool {
        self.holds_key(self.view)
    }
}

/// What is not zero in a fresh world: view 1 has these members, f and read
/// size, and each member holds view 1 and its key.
pub struct Fresh {
    pub header: Header,
    pub views: [View; VIEWS],
    pub servers: [Server; SERVERS],
}

impl Fresh {
    pub fn new(members: u32, f: u8, r: u8) -> Result<Fresh, Reason> {
        let first = View {
            members,
            f,
            r,
            ..View::default()
        };
        first.size_rule()?;
        let mut fresh = Fresh {
            header: World::ZERO.header,
            views: World::ZERO.views,
            servers: World::ZERO.servers,
        };
        fresh.header.version = VERSION;
        fresh.header.newest = 1;
        fresh.views[0] = first;
        for (number, server) in (1..).zip(&mut fresh.servers) {
            if first.has_member(number) {
                server.view = 1;
                server.keys = bit(1);
            }
        }
        Ok(fresh)
    }
}

impl World {
    /// All zero: the image of no world, to be filled.
    pub const ZERO: World = World {
        header: Header {
            version: 0,
            used: 0,
            newest: 0,
            ending: 0,
            end: 0,
            spare: [0; 8],
        },
        views: [View {
            members: 0,
            f: 0,
            r: 0,
            spare: [0; 2],
        }; VIEWS],
        holders: [0; VIEWS],
        servers: [Server {
            view: 0,
            faulty: 0,
            spare: [0; 2],
            keys: 0,
            entry: Entry::EMPTY,
        }; SERVERS],
        clients: [Client {
            phase: 0,
            kind: 0,
            request: 0,
            entry: Entry::EMPTY,
            largest: 0,
        }; CLIENTS],
        messages: [Message {
            kind: 0,
            sender: 0,
            view: 0,
            taken: 0,
            request: 0,
            next: 0,
            entry: Entry::EMPTY,
        }; MESSAGES],
    };

    /// The world that a run begins with.
    pub fn fresh(members: u32, f: u8, r: u8) -> Result<World, Reason> {
        let fresh = Fresh::new(members, f, r)?;
        Ok(World {
            header: fresh.header,
            views: fresh.views,
            servers: fresh.servers,
            ..World::ZERO
        })
    }

    pub fn view(&self, number: u8) -> &View {
        &self.views[usize::from(number) - 1]
    }

    pub fn server(&self, number: u8) -> &Server {
        &self.servers[usize::from(number) - 1]
    }

    pub fn server_mut(&mut self, number: u8) -> &mut Server {
        &mut self.servers[usize::from(number) - 1]
    }

    pub fn client(&self, number: u8) -> &Client {
        &self.clients[usize::from(number) - 1]
    }

    pub fn client_mut(&mut self, number: u8) -> &mut Client {
        &mut self.clients[usize::from(number) - 1]
    }

    /// One more faulty server holds each of these keys.
    pub fn add_holder(&mut self, keys: u32) {
        for view in (1..)
            .zip(&mut self.holders)
            .filter(|(view, _)| keys & bit(*view) != 0)
        {
            *view.1 += 1;
        }
    }

    /// The message of that number, if the number is used.
    pub fn message(&self, number: u16) -> Option<&Message> {
        if number == 0 || number > self.header.used {
            return None;
        }
        self.messages.get(usize::from(number))
    }

    pub fn is_ending(&self) -> bool {
        self.header.ending != 0
    }

    /// Refused with 10 if all message numbers are used.
    pub fn number_left(&self) -> Result<(), Reason> {
        if self.header.used >= LAST_MESSAGE {
            return Err(Reason::NoNumber);
        }
        Ok(())
    }

    /// The number that the next message takes, if one is left.
    pub fn next_number(&self) -> u16 {
        self.header.used + 1
    }

    /// Adds a message under the number after the last used and returns that
    /// number. The caller has made sure that one is left.
    pub fn send(&mut self, message: Message) -> u16 {
        self.header.used += 1;
        self.messages[usize::from(self.header.used)] = message;
        self.header.used
    }
}
