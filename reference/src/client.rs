//! The rules of one client: how an operation begins, what closing a phase makes
//! of its record, and how it is given up.

use crate::entry::Entry;
use crate::refusal::Reason;
use crate::rules::Rules;
use crate::world::{operation_kind, phase, Client};

/// An operation begins with a READ of this number. A write's entry has its
/// value alone, a read's is empty.
pub fn begin(client: &Client, kind: u8, entry: Entry, request: u16) -> Result<Client, Reason> {
    if client.phase != phase::IDLE {
        return Err(Reason::ClientBusy);
    }
    Ok(Client {
        phase: phase::READING,
        kind,
        request,
        entry,
        ..*client
    })
}

/// The READ phase of the client of this number closes with the chosen entry: a
/// WRITE of that number goes out, with a new entry for a write and the chosen
/// one for a read. A read whose answers all carry one entry is complete, and
/// nothing goes out.
pub fn close_read<R: Rules>(
    client: &Client,
    number: u8,
    chosen: Entry,
    one_entry: bool,
    request: u16,
) -> Result<Client, Reason> {
    let read = client.kind != operation_kind::WRITE;
    if read && (one_entry || R::SKIPS_WRITE_BACK) {
        return Ok(Client {
            entry: chosen,
            ..close_write(client)
        });
    }
    let writing = Client {
        phase: phase::WRITING,
        request,
        ..*client
    };
    if read {
        return Ok(Client {
            entry: chosen,
            ..writing
        });
    }
    let count = new_count::<R>(client, chosen.count)?;
    Ok(Client {
        entry: Entry::new(count, number, client.entry.value),
        largest: count,
        ..writing
    })
}

/// One above the larger of the count read and the largest that the client ever
/// gave a write of its own.
fn new_count<R: Rules>(client: &Client, read: u32) -> Result<u32, Reason> {
    let next = read.checked_add(1).ok_or(Reason::CountTooLarge)?;
    if R::FORGETS_OWN_COUNT {
        return Ok(next);
    }
    let own = client.largest.checked_add(1);
    Ok(next.max(own.ok_or(Reason::OwnCountTooLarge)?))
}

/// The last phase closes: the operation is complete, and its entry stays in the
/// record.
pub fn close_write(client: &Client) -> Client {
    Client {
        phase: phase::IDLE,
        request: 0,
        ..*client
    }
}

/// The open operation is given up. Only the largest count stays.
pub fn give_up(client: &Client) -> Result<Client, Reason> {
    if client.phase == phase::IDLE {
        return Err(Reason::ClientIdle);
    }
    Ok(Client {
        largest: client.largest,
        ..Client::default()
    })
}
