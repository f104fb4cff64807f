//! What a filing and a read cost in messages and waits, for every permitted
//! read size: counted in runs in which each phase asks as many servers as it
//! needs and no more.

use crate::quorum::quorum_size;
use crate::record::{step_kind, Step};
use crate::script::Script;

/// Reads for each filing.
pub const READS: usize = 100;

/// Messages sent by or to a client, requests and answers apart for each server,
/// and the answers that each exchange waits for.
#[derive(Clone, Debug, PartialEq, Eq)]
pub struct Cost {
    pub messages: usize,
    pub waits: Vec<usize>,
}

/// A row of the table: r, both sizes, and the costs. A read's answers carry one
/// entry, or they do not.
pub struct Row {
    pub r: u8,
    pub read_size: u32,
    pub write_size: u32,
    pub filing: Cost,
    pub agreed_read: Cost,
    pub other_read: Cost,
}

/// The rows of n servers with f faulty ones: r 0, then every permitted r.
pub fn rows(n: u8, f: u8) -> Vec<Row> {
    (0..=u8::MAX)
        .filter_map(|r| {
            let sizes = quorum_size(n.into(), f.into(), r.into()).ok()?;
            Some(Row {
                r,
                read_size: sizes.read,
                write_size: sizes.write,
                filing: filing(n, f, r),
                agreed_read: read(n, f, r, false),
                other_read: read(n, f, r, true),
            })
        })
        .collect()
}

fn begun(n: u8, f: u8, r: u8) -> (Script, Vec<u8>) {
    let servers: Vec<u8> = (1..=n).collect();
    let mut script = Script::sized(u32::MAX >> (32 - n), f, r);
    script.act(Step::write(1, 7));
    script.finish_in_turn(1, &servers);
    (script, servers)
}

fn filing(n: u8, f: u8, r: u8) -> Cost {
    cost(&begun(n, f, r).0, 0)
}

/// After a filing on the first servers a read asks servers in number order; the
/// WRITE of an unfinished filing has reached server 1, or has not.
fn read(n: u8, f: u8, r: u8, unfinished: bool) -> Cost {
    let (mut script, servers) = begun(n, f, r);
    if unfinished {
        script.act(Step::write(2, 8));
        let request = script.request(2);
        for server in &servers {
            if script.request(2) == request {
                script.exchange(request, &[*server]);
            }
        }
        script.act(Step::deliver(1, script.request(2)));
    }
    let before = script.journal.steps.len();
    script.act(Step::read(3));
    script.finish_in_turn(3, &servers);
    cost(&script, before)
}

/// Of the steps from this place on: a delivery is a request that reaches a
/// server and its answer, and the takes of each exchange are what it waits for.
fn cost(script: &Script, from: usize) -> Cost {
    let mut waits = Vec::new();
    let mut asked = 0;
    let mut messages = 0;
    for step in &script.journal.steps[from..] {
        let message = u16::from_le_bytes([step[4], step[5]]);
        match step[0] {
            step_kind::DELIVER => {
                messages += 2;
                if message != asked {
                    asked = message;
                    waits.push(0);
                }
            }
            step_kind::TAKE => *waits.last_mut().expect("an answer was delivered") += 1,
            _ => {}
        }
    }
    Cost { messages, waits }
}

/// The table, as Markdown.
pub fn table(n: u8, f: u8) -> String {
    let mut text = format!("### n = {n}, f = {f}\n\n");
    text += "| r | read size | write size | filing: messages | waits | read, one entry: messages | waits | read, other: messages | waits | 100 reads, one entry, and a filing | 100 reads, other, and a filing |\n";
    text += "|---:|---:|---:|---:|---|---:|---|---:|---|---:|---:|\n";
    for row in rows(n, f) {
        let waits = |cost: &Cost| {
            let each: Vec<String> = cost.waits.iter().map(usize::to_string).collect();
            each.join(" + ")
        };
        let total = |read: &Cost| READS * read.messages + row.filing.messages;
        text += &format!(
            "| {} | {} | {} | {} | {} | {} | {} | {} | {} | {} | {} |\n",
            row.r,
            row.read_size,
            row.write_size,
            row.filing.messages,
            waits(&row.filing),
            row.agreed_read.messages,
            waits(&row.agreed_read),
            row.other_read.messages,
            waits(&row.other_read),
            total(&row.agreed_read),
            total(&row.other_read),
        );
    }
    text
}
