//! `zemawulo text` and `zemawulo bytes`: records as lines and back.

use super::Command;
use crate::failure::Failure;
use crate::files::{self, Output};
use crate::options::Options;
use crate::progress::Progress;
use crate::records::{Next, Records};
use crate::text::{print, Format, ANSWERS, JOURNAL, LOG};

const FLAGS: &[(&str, bool)] = &[("--log", false), ("--answers", false), ("-o", true)];

pub const TEXT: Command = Command {
    name: "text",
    summary: "write a journal, a log or answers as lines of text",
    help: "
usage: zemawulo text FILE [--log | --answers] [-o FILE]

Writes each record of a file of bytes as a line, so that `zemawulo bytes` gives the same bytes again. A record of no known kind, or
with a byte set that its kind does not use, has the form `raw bytes=...`.

FILE       a journal or an input of `run`; - is standard input
--log      FILE is a log, as `judge` takes it
--answers  FILE is a list of answers, as `vouch` takes it
-o FILE    writes to this file, not to standard output
",
    flags: FLAGS,
    run: text,
};

pub const BYTES: Command = Command {
    name: "bytes",
    summary: "write lines of text as the bytes of a journal, a log or answers",
    help: "
usage: zemawulo bytes FILE [--log | --answers] [-o FILE]

Writes each line of a text as a record. Blank lines, and all from a # on, are passed over. A line that is not understood ends it, and
nothing is written.

FILE       a text; - is standard input. The lines of a journal, their fields in this sequence:
             world members=1,2,3,4 f=1 r=3
             write client=1 value=7
             read client=1
             deliver server=1 message=1
             take message=2
             fault server=1
             false-answer server=1 view=1 message=5 source=3
             new-view members=1,2,3,4 f=1 r=3
             give-up client=1
             restart members=1,2,3,4 f=1 r=3
             raw bytes=0a0000000000000000000000
           r is the read size of a view; it is left out where it is 0, a quorum. A restart that leaves the pending view as it is
           is the word `restart` alone.
--log      the lines are those of a log:
             write begin=1 end=2 count=1 writer=1 value=7
             read begin=3 end=0 count=1 writer=1 value=7
--answers  the lines are answers without a signature:
             answer server=1 count=3 writer=2 value=7
-o FILE    writes to this file, not to standard output
",
    flags: FLAGS,
    run: bytes,
};

fn format(options: &Options) -> Result<&'static Format, Failure> {
    match (options.has("--log"), options.has("--answers")) {
        (false, false) => Ok(&JOURNAL),
        (true, false) => Ok(&LOG),
        (false, true) => Ok(&ANSWERS),
        (true, true) => Err(options.bad("`--log` and `--answers` do not go together")),
    }
}

fn text(options: &Options) -> Result<(), Failure> {
    let [name] = options.files(["FILE"])?;
    let format = format(options)?;
    let mut records = Records::of_bytes(name, format)?;
    let cut = |length: u64| {
        let (width, what) = (format.width, zemawulo::Refusal::Length);
        let met = format!("{name}, whose last record has {length} of {width} bytes");
        Err(Failure::refused(met, what))
    };
    // Of a plain file the end is known before the first line is written.
    let known = records.length.map(|length| length % format.width as u64);
    if let Some(length) = known.filter(|length| *length != 0) {
        return cut(length);
    }
    let mut output = Output::create(options.flag("-o"))?;
    let mut held = Vec::new();
    let mut progress = Progress::of("records");
    loop {
        match records.next()? {
            Next::Record(record) => {
                let line = print(format, &record) + "\n";
                match known {
                    Some(_) => output.put(line.as_bytes())?,
                    None => held.extend(line.into_bytes()),
                }
            }
            Next::Cut(length) => return cut(length as u64),
            Next::End => break,
        }
        progress.add(1);
    }
    output.put(&held)?;
    output.finish()
}

fn bytes(options: &Options) -> Result<(), Failure> {
    let [name] = options.files(["FILE"])?;
    let mut records = Records::open(name, true, format(options)?)?;
    let mut bytes = Vec::new();
    let mut progress = Progress::of("lines");
    while let Next::Record(record) = records.next()? {
        bytes.extend(record);
        progress.add(1);
    }
    files::write(options.flag("-o"), &bytes)
}
