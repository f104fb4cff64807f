//! Taking an answer: it goes to the head of its request's chain, and closes
//! what waits for it if the answers of its view now come from enough servers.

use crate::administrator;
use crate::client;
use crate::entry::Entry;
use crate::refusal::Reason;
use crate::rules::Rules;
use crate::step::{Close, Deed, Differ, Done, Outcome};
use crate::world::{bit, message_kind, operation_kind, phase, Client, Message, World};

/// What the answers of one view to one request amount to, the one just taken
/// included.
struct Tally {
    /// The servers they come from, as bits.
    servers: u32,
    /// How many they are.
    answers: u32,
    /// Their largest entry; of equal stamps the one taken first.
    largest: Entry,
    /// In what they differ; none if all carry one entry.
    differ: Option<Differ>,
}

impl Tally {
    fn reaches<R: Rules>(&self, size: u32) -> bool {
        if R::COUNTS_ANSWERS {
            self.answers >= size
        } else {
            self.servers.count_ones() >= size
        }
    }
}

pub fn take<R: Rules>(world: &mut World, number: u16) -> Outcome {
    let answer = *world.message(number).ok_or(Reason::NoSuchMessage)?;
    if answer.kind != message_kind::ANSWER {
        return Err(Reason::NotAnAnswer);
    }
    if answer.taken != 0 {
        return Err(Reason::TakenBefore);
    }
    let close = waiting(world, answer.request).ok_or(Reason::NobodyWaits)?;
    if close == Close::End && answer.view != world.header.newest {
        link(world, number);
        return Ok(Done::just(Deed::CountsForNothing));
    }
    let tally = tally(world, &answer, R::ADDS_UP_VIEWS && close != Close::End);
    let sizes = world.view(answer.view).sizes();
    let size = match close {
        Close::ReadOfWrite | Close::ReadOfRead => sizes.read,
        Close::WriteOfWrite | Close::WriteOfRead | Close::End => sizes.write,
    };
    if !tally.reaches::<R>(size) {
        link(world, number);
        return Ok(Done::just(Deed::LeftOpen(close)));
    }
    match close {
        Close::ReadOfWrite | Close::ReadOfRead => {
            let enough = sizes.read >= sizes.write || R::ENDS_READS_EARLY;
            close_read::<R>(world, number, close, &tally, enough)
        }
        Close::WriteOfWrite | Close::WriteOfRead => Ok(close_write(world, number, close)),
        Close::End => close_end(world, number, tally.largest),
    }
}

/// Who waits for answers to this request: its client in an open phase that
/// names it, or the administrator whose END it is.
fn waiting(world: &World, number: u16) -> Option<Close> {
    let request = world.message(number)?;
    if request.kind == message_kind::END {
        return (world.is_ending() && world.header.end == number).then_some(Close::End);
    }
    let client = world.client(request.sender);
    if client.phase == phase::IDLE || client.request != number {
        return None;
    }
    Some(match (client.phase, client.kind) {
        (phase::READING, operation_kind::WRITE) => Close::ReadOfWrite,
        (phase::READING, _) => Close::ReadOfRead,
        (_, operation_kind::WRITE) => Close::WriteOfWrite,
        (_, _) => Close::WriteOfRead,
    })
}

/// Walks the chain from its newest link to its oldest. A later link is an
/// earlier answer, so it also wins with an equal stamp.
fn tally(world: &World, answer: &Message, all_views: bool) -> Tally {
    let mut tally = Tally {
        servers: bit(answer.sender),
        answers: 1,
        largest: answer.entry,
        differ: None,
    };
    let mut next = world.messages[usize::from(answer.request)].next;
    while next != 0 {
        let taken = &world.messages[usize::from(next)];
        if all_views || taken.view == answer.view {
            tally.servers |= bit(taken.sender);
            tally.answers += 1;
            tally.differ = tally.differ.max(difference(&answer.entry, &taken.entry));
            if taken.entry.stamp() >= tally.largest.stamp() {
                tally.largest = taken.entry;
            }
        }
        next = taken.next;
    }
    tally
}

/// In what two entries differ.
fn difference(one: &Entry, other: &Entry) -> Option<Differ> {
    if one.stamp() != other.stamp() {
        Some(Differ::Stamp)
    } else {
        (one != other).then_some(Differ::Value)
    }
}

/// The answer is taken: it becomes the head of its request's chain.
fn link(world: &mut World, number: u16) {
    let request = usize::from(world.messages[usize::from(number)].request);
    let head = world.messages[request].next;
    let answer = &mut world.messages[usize::from(number)];
    answer.taken = 1;
    answer.next = head;
    world.messages[request].next = number;
}

/// The client that sent the request of this answer.
fn asker(world: &World, number: u16) -> u8 {
    let request = world.messages[usize::from(number)].request;
    world.messages[usize::from(request)].sender
}

/// A READ phase closes: the read is complete, or the WRITE goes out, with a new
/// entry for a write and the one chosen for a read. One exchange is enough only
/// where the read size is not below the write size.
fn close_read<R: Rules>(
    world: &mut World,
    number: u16,
    close: Close,
    tally: &Tally,
    enough: bool,
) -> Outcome {
    let asker = asker(world, number);
    let after = client::close_read::<R>(
        world.client(asker),
        asker,
        tally.largest,
        enough && tally.differ.is_none(),
        world.next_number(),
    )?;
    if after.phase == phase::IDLE {
        return Ok(complete(world, number, after, Deed::OneExchange));
    }
    world
        .number_left()
        .map_err(|_| Reason::NoNumberToClose(close))?;
    link(world, number);
    world.send(Message {
        kind: message_kind::WRITE,
        sender: asker,
        entry: after.entry,
        ..Message::default()
    });
    *world.client_mut(asker) = after;
    Ok(Done::just(match tally.differ {
        Some(differ) if close == Close::ReadOfRead => Deed::WroteBack(differ),
        None if close == Close::ReadOfRead => Deed::WroteBackOne,
        _ => Deed::Closed(close),
    }))
}

/// A WRITE phase closes: the operation is complete, and its entry stays in the
/// client's record.
fn close_write(world: &mut World, number: u16, close: Close) -> Done {
    let asker = asker(world, number);
    let after = client::close_write(world.client(asker));
    complete(world, number, after, Deed::Closed(close))
}

/// The answer completes its client's operation, and nothing is sent.
fn complete(world: &mut World, number: u16, after: Client, deed: Deed) -> Done {
    let asker = asker(world, number);
    link(world, number);
    *world.client_mut(asker) = after;
    Done {
        deed,
        completed: asker,
    }
}

/// The END closes: the pending view becomes the newest, and START goes out with
/// the entry chosen.
fn close_end(world: &mut World, number: u16, chosen: Entry) -> Outcome {
    let after = administrator::advance(&world.header)?;
    world
        .number_left()
        .map_err(|_| Reason::NoNumberToClose(Close::End))?;
    link(world, number);
    world.header = after;
    world.send(Message {
        kind: message_kind::START,
        view: world.header.newest,
        entry: chosen,
        ..Message::default()
    });
    Ok(Done::just(Deed::Closed(Close::End)))
}
