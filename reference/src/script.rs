//! Journals written by hand without counting message numbers: each step is done
//! on a world as it is written down, and must be accepted there.

use crate::journal::Journal;
use crate::record::Step;
use crate::rules::Sound;
use crate::step::{step, Done};
use crate::world::World;

#[derive(Clone, Debug)]
pub struct Script {
    pub world: World,
    pub journal: Journal,
}

impl Script {
    pub fn new(members: u32, f: u8) -> Script {
        Script::sized(members, f, 0)
    }

    /// From a fresh world with a read size.
    pub fn sized(members: u32, f: u8, r: u8) -> Script {
        Script {
            world: World::fresh(members, f, r).expect("the first view keeps the size rule"),
            journal: Journal::sized(members, f, r),
        }
    }

    /// One step, which must be accepted.
    pub fn act(&mut self, record: Step) -> Done {
        let done = step::<Sound>(&mut self.world, &record)
            .unwrap_or_else(|reason| panic!("{record:?} is refused: {reason:?}"));
        self.journal.push(record);
        done
    }

    /// The number of the last message sent.
    pub fn last(&self) -> u16 {
        self.world.header.used
    }

    /// The request that the client waits for answers to.
    pub fn request(&self, client: u8) -> u16 {
        self.world.client(client).request
    }

    /// Delivers the message and returns the answer's number.
    pub fn answer(&mut self, server: u8, message: u16) -> u16 {
        self.act(Step::deliver(server, message));
        self.last()
    }

    /// Each server answers the request, and each answer is taken at once.
    pub fn exchange(&mut self, request: u16, servers: &[u8]) {
        for server in servers {
            let answer = self.answer(*server, request);
            self.act(Step::take(answer));
        }
    }

    /// A faulty server answers with the entry of the source, and the answer is
    /// taken at once.
    pub fn lie(&mut self, server: u8, view: u8, request: u16, source: u16) {
        self.act(Step::false_answer(server, view, request, source));
        let answer = self.last();
        self.act(Step::take(answer));
    }

    /// All phases of the client's open operation, on the same servers.
    pub fn finish(&mut self, client: u8, servers: &[u8]) {
        while self.request(client) != 0 {
            self.exchange(self.request(client), servers);
        }
    }

    /// The same, with no answer more than each phase needs.
    pub fn finish_in_turn(&mut self, client: u8, servers: &[u8]) {
        while self.request(client) != 0 {
            let request = self.request(client);
            for server in servers {
                if self.request(client) == request {
                    self.exchange(request, &[*server]);
                }
            }
        }
    }

    /// A whole write; returns the number of its WRITE.
    pub fn write(&mut self, client: u8, value: u32, servers: &[u8]) -> u16 {
        self.act(Step::write(client, value));
        self.exchange(self.request(client), servers);
        let written = self.request(client);
        self.exchange(written, servers);
        written
    }

    /// A whole read.
    pub fn read(&mut self, client: u8, servers: &[u8]) {
        self.act(Step::read(client));
        self.finish(client, servers);
    }

    /// A whole view change: these servers end the old view, and these start the
    /// new one. Returns the number of the START.
    pub fn change_view(&mut self, members: u32, f: u8, enders: &[u8], starters: &[u8]) -> u16 {
        self.act(Step::new_view(members, f));
        self.exchange(self.world.header.end, enders);
        let start = self.last();
        for server in starters {
            self.act(Step::deliver(*server, start));
        }
        start
    }
}
