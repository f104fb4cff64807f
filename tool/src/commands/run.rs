//! `zemawulo run`: an input from its world to its end.

use zemawulo::bytes::STEP;
use zemawulo::{Image, Refusal};

use super::Command;
use crate::failure::Failure;
use crate::files::{self, Output};
use crate::options::Options;
use crate::progress::Progress;
use crate::records::{self, step_of, Next, Records, Stop};
use crate::text::JOURNAL;

pub const RUN: Command = Command {
    name: "run",
    summary: "run an input: its world, then its steps",
    help: "
usage: zemawulo run INPUT [--text] [-o IMAGE [--keep]]

Makes the world of the first record and does the steps behind it, up to the first that is refused. Prints a line for each operation
that completes (client, W or R, count, writer, value), then `done`, the steps accepted, and the number of the refusal, or 0.

INPUT      bytes, or text if its name ends in .txt; - is standard input
--text     INPUT is text, whatever its name
-o IMAGE   writes the image at the end; beside a refusal only with --keep
--keep     writes the image of the steps accepted before a refusal too
",
    flags: &[("--text", false), ("-o", true), ("--keep", false)],
    run,
};

fn run(options: &Options) -> Result<(), Failure> {
    let [name] = options.files(["INPUT"])?;
    let mut records = Records::open(name, options.has("--text"), &JOURNAL)?;
    let mut output = Output::create(None)?;
    let mut image = match records::fresh(&mut records)? {
        Ok(image) => image,
        Err(stop) => {
            output.line(&format!("done 0 {}", stop.refusal.number()))?;
            output.finish()?;
            return Err(stop.failure());
        }
    };
    let (steps, stop) = steps(&mut records, &mut image, &mut output)?;
    let number = stop.as_ref().map_or(0, |stop| stop.refusal.number());
    output.line(&format!("done {steps} {number}"))?;
    output.finish()?;
    let file = options.flag("-o");
    if let Some(file) = file.filter(|_| stop.is_none() || options.has("--keep")) {
        files::write(Some(file), image.as_bytes())?;
    }
    stop.map_or(Ok(()), |stop| Err(stop.failure()))
}

/// The steps up to the first that is refused, and that.
fn steps(
    records: &mut Records,
    image: &mut Image,
    output: &mut Output,
) -> Result<(u64, Option<Stop>), Failure> {
    let mut progress = Progress::of("steps");
    let mut done = 0;
    loop {
        let stop = match records.next()? {
            Next::End => return Ok((done, None)),
            Next::Cut(length) => Stop {
                refusal: Refusal::Length,
                met: format!("step {}, {length} of {STEP} bytes", done + 1),
            },
            Next::Record(record) => match image.step(step_of(&record)) {
                Ok(completed) => {
                    if let Some(client) = completed {
                        output.line(&operation(image, client))?;
                    }
                    done += 1;
                    progress.add(1);
                    continue;
                }
                Err(refusal) => Stop {
                    refusal,
                    met: records.met(done + 1, &record),
                },
            },
        };
        return Ok((done, Some(stop)));
    }
}

/// The line of the operation that a client completed.
pub fn operation(image: &Image, client: u8) -> String {
    let record = image.client(client).unwrap_or_default();
    let letter = record.kind().map_or('?', |kind| kind.letter());
    let entry = record.entry();
    let (count, writer, value) = (entry.count(), entry.writer(), entry.value());
    format!("{client} {letter} {count} {writer} {value}")
}
