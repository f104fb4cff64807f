//! `zemawulo judge`: a log from elsewhere.

use zemawulo::bytes::{LOG_LINE, LOG_LINES, ORDER_LINE};
use zemawulo::LogLine;

use super::Command;
use crate::failure::Failure;
use crate::files::Output;
use crate::options::Options;
use crate::records::Records;
use crate::text::LOG;

pub const JUDGE: Command = Command {
    name: "judge",
    summary: "tell whether a log from elsewhere has an order",
    help: "
usage: zemawulo judge LOG [--text]

Judges a log of at most 256 operations: whether they have an order in which each read returns the last write before it, what ended
before another began comes first, and stamps never fall. Prints a line for each operation of the order (its line number, W or R,
count, writer, value), then `done`, how many they are, and the number of the refusal, or 0. With 13 there is no order.

LOG     bytes, or text if its name ends in .txt (write begin=1 end=2 count=1 writer=1 value=7; end=0 is unfinished);
        - is standard input
--text  LOG is text, whatever its name
",
    flags: &[("--text", false)],
    run,
};

fn run(options: &Options) -> Result<(), Failure> {
    let [name] = options.files(["LOG"])?;
    let mut records = Records::open(name, options.has("--text"), &LOG)?;
    let log = records.all((LOG_LINES + 1) * LOG_LINE)?;
    let mut order = vec![0; log.len() / LOG_LINE * ORDER_LINE];
    let judged = zemawulo::bytes::judge(&log, &mut order);
    let mut output = Output::create(None)?;
    let operations = judged.unwrap_or(0);
    for place in order.chunks_exact(ORDER_LINE).take(operations as usize) {
        output.line(&line(&log, u16::from_le_bytes([place[0], place[1]])))?;
    }
    let number = judged.err().map_or(0, |refusal| refusal.number());
    output.line(&format!("done {operations} {number}"))?;
    output.finish()?;
    judged
        .map(|_| ())
        .map_err(|refusal| Failure::refused(name, refusal))
}

fn line(log: &[u8], number: u16) -> String {
    let mut lines = log.chunks_exact(LOG_LINE);
    let bytes = lines
        .nth(usize::from(number).wrapping_sub(1))
        .unwrap_or(&[]);
    let line = LogLine::from_bytes(bytes.try_into().unwrap_or([0; LOG_LINE]));
    let letter = line.kind().map_or('?', |kind| kind.letter());
    let entry = line.entry();
    let (count, writer, value) = (entry.count(), entry.writer(), entry.value());
    format!("{number} {letter} {count} {writer} {value}")
}
