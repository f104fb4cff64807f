//! The records of a file, one after another, from bytes or from text. No more
//! than one record or line is in memory.

use std::io::{BufRead, BufReader, Read};

use zemawulo::bytes::STEP;
use zemawulo::{Image, Refusal, Step, World};

use crate::failure::Failure;
use crate::files::Input;
use crate::text::{parse, print, Format, JOURNAL};

/// The longest line of a text, in bytes.
const LINE: u64 = 4096;

pub enum Next {
    Record(Vec<u8>),
    /// The last record ends too early: so many bytes are there.
    Cut(usize),
    End,
}

pub struct Records {
    name: String,
    pub format: &'static Format,
    pub length: Option<u64>,
    source: Source,
}

enum Source {
    Bytes(Box<dyn Read>),
    Text {
        reader: BufReader<Box<dyn Read>>,
        line: u64,
    },
}

impl Records {
    /// A file is text if its name ends in .txt, or if that is said.
    pub fn open(name: &str, text: bool, format: &'static Format) -> Result<Records, Failure> {
        if !text && !name.ends_with(".txt") {
            return Records::of_bytes(name, format);
        }
        let input = Input::open(name)?;
        let reader = BufReader::new(input.reader);
        Ok(Records {
            name: input.name,
            format,
            length: None,
            source: Source::Text { reader, line: 0 },
        })
    }

    /// A file of bytes, whatever its name.
    pub fn of_bytes(name: &str, format: &'static Format) -> Result<Records, Failure> {
        let input = Input::open(name)?;
        Ok(Records {
            name: input.name,
            format,
            length: input.length,
            source: Source::Bytes(input.reader),
        })
    }

    pub fn next(&mut self) -> Result<Next, Failure> {
        let (name, format) = (&self.name, self.format);
        match &mut self.source {
            Source::Bytes(reader) => from_bytes(reader, name, format),
            Source::Text { reader, line } => from_text(reader, name, format, line),
        }
    }

    /// All records as bytes, refused for their length from a limit on. Of what
    /// is cut short the bytes are there.
    pub fn all(&mut self, limit: usize) -> Result<Vec<u8>, Failure> {
        let mut bytes = Vec::new();
        while bytes.len() <= limit {
            match self.next()? {
                Next::Record(record) => bytes.extend(record),
                Next::Cut(length) => {
                    bytes.extend(vec![0; length]);
                    break;
                }
                Next::End => break,
            }
        }
        Ok(bytes)
    }

    /// What met a refusal: a step by its number and its line.
    pub fn met(&self, step: u64, record: &[u8]) -> String {
        format!("step {step}, {}", print(self.format, record))
    }
}

fn from_bytes(reader: &mut dyn Read, name: &str, format: &Format) -> Result<Next, Failure> {
    let mut record = Vec::with_capacity(format.width);
    let read = reader.take(format.width as u64).read_to_end(&mut record);
    read.map_err(|error| Failure::file(name, error))?;
    Ok(match record.len() {
        0 => Next::End,
        length if length == format.width => Next::Record(record),
        length => Next::Cut(length),
    })
}

fn from_text(
    reader: &mut dyn BufRead,
    name: &str,
    format: &Format,
    line: &mut u64,
) -> Result<Next, Failure> {
    loop {
        let mut bytes = Vec::new();
        let read = reader.take(LINE + 1).read_until(b'\n', &mut bytes);
        read.map_err(|error| Failure::file(name, error))?;
        if bytes.is_empty() {
            return Ok(Next::End);
        }
        *line += 1;
        if let Some(record) = one_line(&bytes, name, format, *line)? {
            return Ok(Next::Record(record));
        }
    }
}

fn one_line(
    bytes: &[u8],
    name: &str,
    format: &Format,
    line: u64,
) -> Result<Option<Vec<u8>>, Failure> {
    let whole = bytes.strip_suffix(b"\n").unwrap_or(bytes);
    if bytes.len() as u64 > LINE {
        let what = format!("{name}:{line}:1: expected a line of at most {LINE} bytes");
        return Err(Failure::Usage(what));
    }
    let text = match std::str::from_utf8(whole) {
        Ok(text) => text,
        Err(error) => {
            let column = error.valid_up_to() + 1;
            let what = format!("{name}:{line}:{column}: expected text in UTF-8");
            return Err(Failure::Usage(what));
        }
    };
    parse(format, text).map_err(|wrong| {
        let column = wrong.column;
        let (expected, found) = (wrong.expected, wrong.found);
        let shown = text.escape_debug().to_string();
        let mut what = format!("{name}:{line}:{column}: expected {expected}, found {found}");
        if shown == text {
            what += &format!("\n    {text}\n    {:>column$}", "^");
        }
        Failure::Usage(what)
    })
}

/// A refusal and what met it.
pub struct Stop {
    pub refusal: Refusal,
    pub met: String,
}

impl Stop {
    pub fn failure(&self) -> Failure {
        Failure::refused(&self.met, self.refusal)
    }
}

/// The world of an input's first record.
pub fn world(records: &mut Records) -> Result<Result<World, Stop>, Failure> {
    let stop = |refusal, met: &str| {
        let met = format!("the first record, {met}");
        Ok(Err(Stop { refusal, met }))
    };
    match records.next()? {
        Next::End => stop(Refusal::Length, "which is missing"),
        Next::Cut(length) => stop(Refusal::Length, &format!("{length} of {STEP} bytes")),
        Next::Record(record) => match World::from_bytes(step_bytes(&record)) {
            Some(world) => Ok(Ok(world)),
            None => stop(Refusal::Range, &print(&JOURNAL, &record)),
        },
    }
}

/// The fresh world of an input's first record.
pub fn fresh(records: &mut Records) -> Result<Result<Image, Stop>, Failure> {
    Ok(world(records)?.and_then(|world| {
        Image::fresh(world).map_err(|refusal| Stop {
            refusal,
            met: format!("the first record, {}", print(&JOURNAL, &world.to_bytes())),
        })
    }))
}

fn step_bytes(record: &[u8]) -> [u8; STEP] {
    record.try_into().unwrap_or([0xff; STEP])
}

/// The step of a record.
pub fn step_of(record: &[u8]) -> Step {
    Step::from_bytes(step_bytes(record))
}
