//! The rules of one server: what it does with a request, how it turns faulty
//! and what it may then say.

use crate::entry::Entry;
use crate::refusal::Reason;
use crate::rules::Rules;
use crate::step::{Deed, Done, Outcome};
use crate::world::{bit, message_kind, Message, Server, World};

/// A request reaches a server.
pub fn deliver<R: Rules>(world: &mut World, server: u8, number: u16) -> Outcome {
    let message = *world.message(number).ok_or(Reason::NoSuchMessage)?;
    match message.kind {
        message_kind::ANSWER => Err(Reason::AnswerDelivered),
        message_kind::START => start::<R>(world, server, &message),
        _ => perform(world, server, number, &message),
    }
}

/// READ, WRITE and END: the server answers, if a number is left for it.
fn perform(world: &mut World, server: u8, number: u16, message: &Message) -> Outcome {
    let after = performed(world.server(server), message)?;
    world.number_left()?;
    *world.server_mut(server) = after;
    world.send(answer(server, after.view, number, after.entry));
    Ok(Done::just(Deed::Answered(message.kind)))
}

/// The record of a server after READ, WRITE or END. It answers with the view
/// and the entry that it then holds.
pub fn performed(server: &Server, message: &Message) -> Result<Server, Reason> {
    serves(server, message)?;
    let mut after = *server;
    if message.kind == message_kind::WRITE {
        after.entry = after.entry.keep_larger(&message.entry);
    }
    if message.kind == message_kind::END {
        after.keys = 0;
    }
    Ok(after)
}

/// Whether the server's rule for READ, WRITE or END applies.
fn serves(server: &Server, message: &Message) -> Result<(), Reason> {
    if server.is_faulty() {
        return Err(Reason::ServerFaulty);
    }
    if server.view == 0 {
        return Err(Reason::NoViewYet);
    }
    if !server.serves() {
        return Err(Reason::KeyGivenUp);
    }
    if message.kind == message_kind::END && message.view != server.view {
        return Err(Reason::EndOfOtherView);
    }
    Ok(())
}

/// START: there is no answer.
fn start<R: Rules>(world: &mut World, server: u8, message: &Message) -> Outcome {
    let member = world.view(message.view).has_member(server);
    let record = world.server_mut(server);
    *record = started::<R>(record, message, member)?;
    if !record.is_faulty() {
        return Ok(Done::just(Deed::Started));
    }
    world.add_holder(bit(message.view));
    Ok(Done::just(Deed::KeyAdded))
}

/// The record of a server after START of view t, which asks for no key. A
/// correct member below t moves to t; a faulty one only gets the key.
pub fn started<R: Rules>(
    server: &Server,
    message: &Message,
    member: bool,
) -> Result<Server, Reason> {
    let view = message.view;
    if !member {
        return Err(Reason::NotAMember);
    }
    let comes_again =
        R::START_RETURNS_KEY && !server.is_faulty() && server.view == view && !server.serves();
    if server.view >= view && !comes_again {
        return Err(Reason::ViewNotBelow);
    }
    if server.is_faulty() {
        if server.holds_key(view) {
            return Err(Reason::KeyHeldAlready);
        }
        return Ok(Server {
            keys: server.keys | bit(view),
            ..*server
        });
    }
    Ok(Server {
        view,
        keys: bit(view),
        entry: server.entry.keep_larger(&message.entry),
        ..*server
    })
}

/// A server turns faulty; it keeps what it holds.
pub fn fault(world: &mut World, server: u8) -> Outcome {
    let record = world.server_mut(server);
    if record.is_faulty() {
        return Err(Reason::FaultyAlready);
    }
    record.faulty = 1;
    let keys = record.keys;
    world.add_holder(keys);
    Ok(Done::just(Deed::Faulted))
}

/// A faulty server answers a request with a view whose key it holds and the
/// entry of any WRITE, or the empty entry if the source is 0.
pub fn false_answer(world: &mut World, server: u8, view: u8, number: u16, source: u16) -> Outcome {
    let request = world.message(number).ok_or(Reason::NoSuchMessage)?;
    if !request.asks() {
        return Err(Reason::NotARequest);
    }
    let entry = shown(world, source)?;
    may_lie(world.server(server), view)?;
    world.number_left()?;
    world.send(answer(server, view, number, entry));
    Ok(Done::just(Deed::Lied))
}

/// Whether the server may answer with this view as it likes.
pub fn may_lie(server: &Server, view: u8) -> Result<(), Reason> {
    if !server.is_faulty() {
        return Err(Reason::ServerCorrect);
    }
    if !server.holds_key(view) {
        return Err(Reason::LacksKey);
    }
    Ok(())
}

/// The entry that a false answer shows.
fn shown(world: &World, source: u16) -> Result<Entry, Reason> {
    if source == 0 {
        return Ok(Entry::EMPTY);
    }
    let message = world.message(source).ok_or(Reason::NoSuchSource)?;
    if message.kind != message_kind::WRITE {
        return Err(Reason::SourceNotWrite);
    }
    Ok(message.entry)
}

fn answer(server: u8, view: u8, request: u16, entry: Entry) -> Message {
    Message {
        kind: message_kind::ANSWER,
        sender: server,
        view,
        request,
        entry,
        ..Message::default()
    }
}
