//! What a step changed: the records of the image after it that differ from
//! those before.

use zemawulo::{Client, Entry, Image, Message, MessageKind, Phase, Server, View};

use super::json;
use crate::commands::show::{sender, size, state};

/// The records that changed, as JSON; all of them if nothing was before.
pub fn changes(before: Option<&Image>, after: &Image) -> String {
    let views = after.views().filter(|(number, view)| {
        let old = before.and_then(|image| image.view(*number));
        old != Some(*view)
    });
    let servers = after.servers().filter(|(number, server)| {
        let old = before.and_then(|image| Some((image.server(*number)?, image.newest())));
        old.map(|(server, _)| server) != Some(*server)
            || old.is_some_and(|(_, newest)| newest != after.newest())
    });
    let clients = after.clients().filter(|(number, client)| {
        let old = before.and_then(|image| image.client(*number));
        old != Some(*client)
    });
    let messages = after.messages().filter(|(number, message)| {
        let old = before.and_then(|image| image.message(*number));
        old != Some(*message)
    });
    json::object(&[
        ("newest", after.newest().to_string()),
        ("ending", after.ending().unwrap_or(0).to_string()),
        ("used", after.used().to_string()),
        ("views", json::list(views.map(view))),
        (
            "servers",
            json::list(servers.map(|(number, record)| server(after, number, record))),
        ),
        ("clients", json::list(clients.map(client))),
        ("messages", json::list(messages.map(message))),
    ])
}

/// An entry, or null for the empty one.
pub fn entry(entry: Entry) -> String {
    match entry.is_empty() {
        true => "null".to_string(),
        false => json::list([entry.count(), entry.writer().into(), entry.value()]),
    }
}

fn view((number, view): (u8, View)) -> String {
    json::object(&[
        ("number", number.to_string()),
        ("members", json::list(view.members().iter())),
        ("f", view.f().to_string()),
        ("r", view.r().to_string()),
        ("read", json::string(&size(view, |sizes| sizes.read))),
        ("write", json::string(&size(view, |sizes| sizes.write))),
    ])
}

fn server(image: &Image, number: u8, server: Server) -> String {
    json::object(&[
        ("number", number.to_string()),
        ("view", server.view().to_string()),
        ("faulty", server.faulty().to_string()),
        ("state", json::string(state(image, server))),
        ("keys", json::list(server.keys().iter())),
        ("entry", entry(server.entry())),
    ])
}

fn client((number, client): (u8, Client)) -> String {
    let (phase, request) = match client.phase() {
        Phase::Idle => ("idle", 0),
        Phase::Reading(request) => ("reading", request),
        Phase::Writing(request) => ("writing", request),
    };
    json::object(&[
        ("number", number.to_string()),
        ("phase", json::string(phase)),
        ("request", request.to_string()),
        (
            "kind",
            json::string(client.kind().map_or("", |kind| match kind {
                zemawulo::Kind::Write => "write",
                zemawulo::Kind::Read => "read",
            })),
        ),
        ("entry", entry(client.entry())),
        ("largest", client.largest_count().to_string()),
    ])
}

fn message((number, message): (u16, Message)) -> String {
    let kind = message.kind().map_or("", MessageKind::name);
    json::object(&[
        ("number", number.to_string()),
        ("kind", json::string(kind)),
        ("from", json::string(&sender(message))),
        ("view", message.view().to_string()),
        ("request", message.request().to_string()),
        ("taken", message.taken().to_string()),
        ("entry", entry(message.entry())),
    ])
}
