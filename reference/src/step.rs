//! One step on a world: what it does, or why it is refused. A refused step
//! leaves the world as it was, since each rule tests all before it changes
//! anything.

use crate::administrator;
use crate::client;
use crate::entry::Entry;
use crate::record::{step_kind, Step};
use crate::refusal::Reason;
use crate::rules::Rules;
use crate::server::{deliver, false_answer, fault};
use crate::take::take;
use crate::world::{message_kind, operation_kind, Message, View, World};

/// A phase, or the wait for END answers, that an answer belongs to.
#[derive(Clone, Copy, Debug, PartialEq, Eq, Hash, PartialOrd, Ord)]
pub enum Close {
    /// The READ phase of a write.
    ReadOfWrite,
    /// The READ phase of a read. When it closes, `OneExchange` or `WroteBack`
    /// says how.
    ReadOfRead,
    /// The WRITE phase of a write.
    WriteOfWrite,
    /// The WRITE phase of a read.
    WriteOfRead,
    /// The END of the newest view.
    End,
}

/// In what the answers of a read differ.
#[derive(Clone, Copy, Debug, PartialEq, Eq, Hash, PartialOrd, Ord)]
pub enum Differ {
    /// In the value alone.
    Value,
    /// In the stamp.
    Stamp,
}

/// What an accepted step did.
#[derive(Clone, Copy, Debug, PartialEq, Eq, Hash, PartialOrd, Ord)]
pub enum Deed {
    /// A client sent its READ.
    Began,
    /// A correct server answered a request of this kind.
    Answered(u8),
    /// A correct server took the view of a START.
    Started,
    /// A faulty server got the key of a START.
    KeyAdded,
    /// The answer was taken and what waits for it stays open.
    LeftOpen(Close),
    /// The answer to END has another view, and counts for nothing.
    CountsForNothing,
    /// The answer closed what waited for it.
    Closed(Close),
    /// The answer closed the READ phase of a read, whose answers differ: the
    /// chosen entry is written back.
    WroteBack(Differ),
    /// The answer closed the READ phase of a read, whose answers all carry one
    /// entry: the read is complete.
    OneExchange,
    /// The same in a view whose read size is below its write size: the entry is
    /// written back.
    WroteBackOne,
    /// A server turned faulty.
    Faulted,
    /// A faulty server answered.
    Lied,
    /// The administrator sent END.
    Ending,
    /// A client gave its operation up.
    GaveUp,
    /// The administrator restarted, with a new pending view or the old one.
    Restarted { renewed: bool },
}

/// An accepted step: what it did, and the client whose operation it completed,
/// or 0.
#[derive(Clone, Copy, Debug, PartialEq, Eq)]
pub struct Done {
    pub deed: Deed,
    pub completed: u8,
}

impl Done {
    pub fn just(deed: Deed) -> Done {
        Done { deed, completed: 0 }
    }
}

pub type Outcome = Result<Done, Reason>;

/// Check 3, then the rule of the step's kind.
pub fn step<R: Rules>(world: &mut World, step: &Step) -> Outcome {
    step.check()?;
    match step.kind {
        step_kind::WRITE => begin(
            world,
            step.who,
            operation_kind::WRITE,
            Entry::new(0, 0, step.value),
        ),
        step_kind::READ => begin(world, step.who, operation_kind::READ, Entry::EMPTY),
        step_kind::DELIVER => deliver::<R>(world, step.who, step.message),
        step_kind::TAKE => take::<R>(world, step.message),
        step_kind::FAULT => fault(world, step.who),
        step_kind::FALSE_ANSWER => {
            false_answer(world, step.who, step.view, step.message, step.source)
        }
        step_kind::NEW_VIEW => new_view(world, step.value, step.f, step.who),
        step_kind::GIVE_UP => give_up(world, step.who),
        step_kind::RESTART => restart(world, step.value, step.f, step.who),
        _ => Err(Reason::UnknownKind),
    }
}

/// Write and read begin alike: a READ goes out, and the client remembers what
/// it is for.
fn begin(world: &mut World, number: u8, kind: u8, entry: Entry) -> Outcome {
    let after = client::begin(world.client(number), kind, entry, world.next_number())?;
    world.number_left()?;
    world.send(Message {
        kind: message_kind::READ,
        sender: number,
        ..Message::default()
    });
    *world.client_mut(number) = after;
    Ok(Done::just(Deed::Began))
}

/// The client's open phase becomes idle; the messages stay.
fn give_up(world: &mut World, number: u8) -> Outcome {
    let record = world.client_mut(number);
    *record = client::give_up(record)?;
    Ok(Done::just(Deed::GaveUp))
}

/// The administrator records the next view and ends the newest.
fn new_view(world: &mut World, members: u32, f: u8, r: u8) -> Outcome {
    let pending = View {
        members,
        f,
        r,
        ..View::default()
    };
    let after = administrator::call(&world.header, &pending, world.next_number())?;
    world.number_left()?;
    world.header = after;
    let newest = world.header.newest;
    world.views[usize::from(newest)] = pending;
    world.send(Message {
        kind: message_kind::END,
        view: newest,
        ..Message::default()
    });
    Ok(Done::just(Deed::Ending))
}

/// The administrator restarted: no answer to the open END is taken any more, and
/// the pending view is a new one if it has members.
fn restart(world: &mut World, members: u32, f: u8, r: u8) -> Outcome {
    let pending = View {
        members,
        f,
        r,
        ..View::default()
    };
    world.header = administrator::restart(&world.header, &pending)?;
    let end = usize::from(world.header.end);
    let mut next = std::mem::take(&mut world.messages[end].next);
    while next != 0 {
        let answer = &mut world.messages[usize::from(next)];
        answer.taken = 0;
        next = std::mem::take(&mut answer.next);
    }
    let renewed = members != 0;
    if renewed {
        world.views[usize::from(world.header.newest)] = pending;
    }
    Ok(Done::just(Deed::Restarted { renewed }))
}
