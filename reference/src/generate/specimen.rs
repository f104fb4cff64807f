//! A world with something of everything, to be spoiled.

use crate::entry::Entry;
use crate::record::Step;
use crate::rules::Sound;
use crate::step::step;
use crate::world::{message_kind, Message, World};

/// Messages of the specimen, by what they are.
pub mod at {
    /// A READ that was answered, with two taken answers.
    pub const READ: usize = 1;
    pub const FIRST_TAKEN: usize = 2;
    pub const SECOND_TAKEN: usize = 3;
    /// An answer to the READ that came too late.
    pub const UNTAKEN: usize = 4;
    /// The WRITE of client 1's open phase.
    pub const WRITE: usize = 5;
    /// An END that was answered, the first answer taken, and its START.
    pub const END: usize = 6;
    pub const END_TAKEN: usize = 7;
    pub const START: usize = 9;
    /// The READ of client 2's open phase.
    pub const OPEN_READ: usize = 10;
    /// The END of the ending view.
    pub const OPEN_END: usize = 11;
    /// A WRITE that no phase names.
    pub const OLD_WRITE: usize = 12;
    /// The first message beyond the used ones.
    pub const BEYOND: usize = 13;
}

/// Two views and a third pending; client 1 writing, client 2 reading, client 3
/// without any operation, client 4 idle after a read; server 1 in view 2,
/// server 2 without a key, server 3 faulty with two keys, the others in no
/// view; a chain of two, a late answer, and a WRITE of client 5.
pub fn specimen() -> World {
    let mut world = World::fresh(0b111, 0, 0).expect("three servers bear no fault");
    for record in steps() {
        step::<Sound>(&mut world, &record).expect("the specimen's steps are accepted");
    }
    let idle = world.client_mut(4);
    idle.kind = 2;
    idle.entry = Entry::new(3, 2, 1);
    world.send(Message {
        kind: message_kind::WRITE,
        sender: 5,
        entry: Entry::new(2, 5, 9),
        ..Message::default()
    });
    world
}

fn steps() -> [Step; 16] {
    [
        Step::write(1, 70),
        Step::deliver(1, 1),
        Step::deliver(2, 1),
        Step::deliver(3, 1),
        Step::take(2),
        Step::take(3), // the WRITE is sent
        Step::new_view(0b1111, 1),
        Step::deliver(1, 6),
        Step::deliver(2, 6),
        Step::take(7),
        Step::take(8), // the START is sent
        Step::deliver(1, 9),
        Step::fault(3),
        Step::deliver(3, 9),
        Step::read(2),
        Step::new_view(0b11111, 1),
    ]
}
