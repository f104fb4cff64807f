//! One machine's rule on its record alone, as bytes: a record of the image and
//! what is asked of it. docs/LAYOUT.md has the bytes of both. A record out of
//! range is 3, then as its step, but for 10, which only the world knows. A
//! refusal writes nothing.

use crate::administrator;
use crate::client;
use crate::codec::Record;
use crate::entry::Entry;
use crate::layout::{
    ADMINISTRATOR_AT, ADMINISTRATOR_CALL_SIZE, ADMINISTRATOR_SIZE, ASKED_SIZE, CLIENT_CALL_SIZE,
    CLIENT_SIZE, HEADER_SIZE, LAST_CLIENT, LAST_MESSAGE, LAST_VIEW, SERVER_CALL_SIZE, SERVER_SIZE,
};
use crate::readable::sender_fits;
use crate::record::step_kind;
use crate::refusal::Reason;
use crate::rules::Sound;
use crate::server::{may_lie, performed, started};
use crate::world::{
    bit, message_kind, operation_kind, phase, Client, Header, Message, Server, View,
};

/// Refused with this reason unless it holds.
pub(crate) fn ask(holds: bool, reason: Reason) -> Result<(), Reason> {
    if holds {
        Ok(())
    } else {
        Err(reason)
    }
}

fn whole<const N: usize>(bytes: &[u8]) -> Result<[u8; N], Reason> {
    bytes.try_into().map_err(|_| Reason::RecordLength)
}

/// The part of what is asked behind its first four bytes.
fn part<const N: usize, R: Record<N>>(asked: &[u8]) -> R {
    let bytes = asked[ASKED_SIZE..ASKED_SIZE + N].try_into();
    R::load(bytes.expect("what is asked has its length"))
}

fn is_number(number: u16) -> bool {
    (1..=LAST_MESSAGE).contains(&number)
}

fn is_view(view: u8) -> bool {
    (1..=LAST_VIEW).contains(&view)
}

pub(crate) fn entry_fits(entry: &Entry) -> bool {
    entry.writer <= LAST_CLIENT && entry.spare == [0; 3]
}

/// A message reaches a server, or a faulty one gives a false answer: true if
/// the server answers the message.
pub fn server_call(record: &mut [u8], asked: &[u8]) -> Result<bool, Reason> {
    let bytes: [u8; SERVER_SIZE] = whole(record)?;
    let asked: [u8; SERVER_CALL_SIZE] = whole(asked)?;
    let server = Server::load(&bytes);
    let message: Message = part(&asked);
    let [rule, flag, view, spare, ..] = asked;
    ask(server_fits(&server), Reason::RecordRange)?;
    ask(flag <= 1 && spare == 0, Reason::CallRange)?;
    ask(message_fits(&message), Reason::CallRange)?;
    match rule {
        step_kind::DELIVER => {
            ask(view == 0, Reason::CallRange)?;
            let after = reached(&server, &message, flag == 1)?;
            record.copy_from_slice(&after.bytes());
            Ok(message.kind != message_kind::START)
        }
        step_kind::FALSE_ANSWER => {
            ask(is_view(view), Reason::CallRange)?;
            ask(message.asks(), Reason::NotARequest)?;
            ask(flag == 1, Reason::SourceNotWrite)?;
            may_lie(&server, view)?;
            Ok(false)
        }
        _ => Err(Reason::CallRange),
    }
}

fn reached(server: &Server, message: &Message, member: bool) -> Result<Server, Reason> {
    match message.kind {
        message_kind::ANSWER => Err(Reason::AnswerDelivered),
        message_kind::START => started::<Sound>(server, message, member),
        _ => performed(server, message),
    }
}

/// A client begins an operation, its phase closes, or it gives up: true if its
/// operation is complete.
pub fn client_call(record: &mut [u8], asked: &[u8]) -> Result<bool, Reason> {
    let bytes: [u8; CLIENT_SIZE] = whole(record)?;
    let asked: [u8; CLIENT_CALL_SIZE] = whole(asked)?;
    let client = Client::load(&bytes);
    let entry: Entry = part(&asked);
    let [rule, number, n0, n1, .., one_entry] = asked;
    let request = u16::from_le_bytes([n0, n1]);
    ask(client_fits(&client), Reason::RecordRange)?;
    let flag_fits = one_entry <= u8::from(rule == step_kind::TAKE);
    ask(flag_fits, Reason::CallRange)?;
    let after = match rule {
        step_kind::WRITE => {
            let only_value = Entry::new(0, 0, entry.value);
            let fits = number == 0 && is_number(request) && entry == only_value;
            ask(fits, Reason::CallRange)?;
            client::begin(&client, operation_kind::WRITE, entry, request)?
        }
        step_kind::READ => {
            let fits = number == 0 && is_number(request) && entry.is_empty();
            ask(fits, Reason::CallRange)?;
            client::begin(&client, operation_kind::READ, entry, request)?
        }
        step_kind::TAKE => closed(&client, number, entry, one_entry == 1, request)?,
        step_kind::GIVE_UP => {
            let fits = number == 0 && request == 0 && entry.is_empty();
            ask(fits, Reason::CallRange)?;
            client::give_up(&client)?
        }
        _ => return Err(Reason::CallRange),
    };
    record.copy_from_slice(&after.bytes());
    Ok(rule == step_kind::TAKE && after.phase == phase::IDLE)
}

/// The open phase closes with the largest entry of its answers, and with
/// whether all carry that one. A number is needed only where a WRITE is sent.
fn closed(
    client: &Client,
    number: u8,
    entry: Entry,
    one_entry: bool,
    request: u16,
) -> Result<Client, Reason> {
    let fits = (1..=LAST_CLIENT).contains(&number) && entry_fits(&entry);
    ask(fits, Reason::CallRange)?;
    match client.phase {
        phase::IDLE => Err(Reason::NothingOpen),
        phase::READING => {
            let sends = client.kind == operation_kind::WRITE || !one_entry;
            ask(!sends || is_number(request), Reason::CallRange)?;
            client::close_read::<Sound>(client, number, entry, one_entry, request)
        }
        _ => Ok(client::close_write(client)),
    }
}

/// The administrator calls a new view, it restarts, or its END closes.
pub fn administrator_call(record: &mut [u8], asked: &[u8]) -> Result<(), Reason> {
    let bytes: [u8; ADMINISTRATOR_SIZE] = whole(record)?;
    let asked: [u8; ADMINISTRATOR_CALL_SIZE] = whole(asked)?;
    let header = in_header(bytes);
    let view: View = part(&asked);
    let [rule, spare, n0, n1, ..] = asked;
    let number = u16::from_le_bytes([n0, n1]);
    ask(administrator_fits(&header), Reason::RecordRange)?;
    ask(spare == 0 && view.spare == [0; 2], Reason::CallRange)?;
    let after = match rule {
        step_kind::NEW_VIEW => {
            ask(is_number(number), Reason::CallRange)?;
            administrator::call(&header, &view, number)?
        }
        step_kind::RESTART => {
            let bare = view.members == 0 && (view.f != 0 || view.r != 0);
            ask(number == 0 && !bare, Reason::CallRange)?;
            administrator::restart(&header, &view)?
        }
        step_kind::TAKE => {
            ask(number == 0 && view == View::default(), Reason::CallRange)?;
            administrator::advance(&header)?
        }
        _ => return Err(Reason::CallRange),
    };
    let end = ADMINISTRATOR_AT + ADMINISTRATOR_SIZE;
    record.copy_from_slice(&after.bytes()[ADMINISTRATOR_AT..end]);
    Ok(())
}

/// The administrator's record in a header that has nothing else.
fn in_header(record: [u8; ADMINISTRATOR_SIZE]) -> Header {
    let mut bytes = [0; HEADER_SIZE];
    bytes[ADMINISTRATOR_AT..ADMINISTRATOR_AT + ADMINISTRATOR_SIZE].copy_from_slice(&record);
    Header::load(&bytes)
}

fn server_fits(server: &Server) -> bool {
    server.view <= LAST_VIEW
        && server.faulty <= 1
        && server.spare == [0; 2]
        && (server.is_faulty() || server.keys & !bit(server.view) == 0)
        && entry_fits(&server.entry)
}

pub(crate) fn message_fits(message: &Message) -> bool {
    let answer = message.kind == message_kind::ANSWER;
    let viewless = matches!(message.kind, message_kind::READ | message_kind::WRITE);
    let empty = matches!(message.kind, message_kind::READ | message_kind::END);
    let chained = message.asks() || message.taken == 1;
    (message_kind::READ..=message_kind::ANSWER).contains(&message.kind)
        && sender_fits(message.kind, message.sender)
        && if viewless {
            message.view == 0
        } else {
            is_view(message.view)
        }
        && message.taken <= u8::from(answer)
        && if answer {
            is_number(message.request)
        } else {
            message.request == 0
        }
        && message.next <= if chained { LAST_MESSAGE } else { 0 }
        && (!empty || message.entry.is_empty())
        && entry_fits(&message.entry)
}

fn client_fits(client: &Client) -> bool {
    let known = matches!(client.kind, operation_kind::WRITE | operation_kind::READ);
    let entry = &client.entry;
    entry_fits(entry)
        && match client.phase {
            phase::IDLE => {
                let none = client.kind == operation_kind::NONE && entry.is_empty();
                client.request == 0 && (known || none)
            }
            phase::READING => {
                let write = client.kind == operation_kind::WRITE;
                let value = if write { entry.value } else { 0 };
                known && is_number(client.request) && *entry == Entry::new(0, 0, value)
            }
            phase::WRITING => known && is_number(client.request),
            _ => false,
        }
}

fn administrator_fits(header: &Header) -> bool {
    is_view(header.newest)
        && match header.ending {
            0 => header.end == 0,
            1 => header.newest < LAST_VIEW && is_number(header.end),
            _ => false,
        }
}
