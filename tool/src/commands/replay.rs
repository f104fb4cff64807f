//! `zemawulo replay`: a journal on an image.

use zemawulo::bytes::{IMAGE, STEP};
use zemawulo::{Image, Refusal, Replayed};

use super::Command;
use crate::failure::Failure;
use crate::files::{self, Input};
use crate::options::Options;
use crate::progress::Progress;
use crate::records::{Next, Records, Stop};
use crate::text::JOURNAL;

pub const REPLAY: Command = Command {
    name: "replay",
    summary: "do the steps of a journal on an image",
    help: "
usage: zemawulo replay IMAGE JOURNAL [--text] [--done N] [-o IMAGE [--keep]]

Does the steps of a journal on an image, up to the first that is refused. Prints `done`, the steps done, and the number of the
refusal, or 0. A journal has steps alone, no first record of a world.

IMAGE      an image, as `fresh`, `run` and `replay` write it; it is not changed
JOURNAL    bytes, or text if its name ends in .txt; - is standard input
--text     JOURNAL is text, whatever its name
--done N   the first N steps were done on this image before, and are passed over
-o IMAGE   writes the image at the end; beside a refusal only with --keep
--keep     writes the image of the steps accepted before a refusal too
",
    flags: &[
        ("--text", false),
        ("--done", true),
        ("-o", true),
        ("--keep", false),
    ],
    run,
};

/// The steps that are in memory at one time.
const PART: usize = 4096;

/// The image in a file.
pub fn image(name: &str) -> Result<Image, Failure> {
    let bytes = Input::open(name)?.up_to(IMAGE)?;
    Image::from_bytes(&bytes).map_err(|refusal| Failure::refused(name, refusal))
}

fn run(options: &Options) -> Result<(), Failure> {
    let [name, journal] = options.files(["IMAGE", "JOURNAL"])?;
    let mut image = image(name)?;
    let mut records = Records::open(journal, options.has("--text"), &JOURNAL)?;
    let before = options.optional("--done")?.unwrap_or(0);
    let resume = |image: &mut Image, part: &[u8], skip| image.resume(part, skip);
    let (steps, stop) = replay(&mut records, &mut image, before, resume)?;
    finish(options, &image, steps, stop)
}

/// The line of a count, and the image in its file.
pub fn finish(
    options: &Options,
    image: &Image,
    steps: u64,
    stop: Option<Stop>,
) -> Result<(), Failure> {
    let number = stop.as_ref().map_or(0, |stop| stop.refusal.number());
    files::say(&format!("done {steps} {number}"))?;
    let kept = steps > 0 && options.has("--keep");
    let file = options.flag("-o");
    if let Some(file) = file.filter(|_| stop.is_none() || kept) {
        files::write(Some(file), image.as_bytes())?;
    }
    stop.map_or(Ok(()), |stop| Err(stop.failure()))
}

/// A journal in parts, with the answer of the whole: one that ends within a
/// record, or has fewer steps than were done before, is refused before any step.
/// `resume` does a part behind its first steps.
pub fn replay(
    records: &mut Records,
    image: &mut Image,
    before: u64,
    mut resume: impl FnMut(&mut Image, &[u8], u64) -> Replayed,
) -> Result<(u64, Option<Stop>), Failure> {
    let known = records.length;
    if known.is_some_and(|length| length % STEP as u64 != 0) {
        return Ok((0, Some(cut())));
    }
    let mut progress = Progress::of("steps");
    let (mut seen, mut done, mut stop) = (0, 0, None);
    loop {
        let (part, here, ends_within) = part(records)?;
        if ends_within {
            return Ok((0, Some(cut())));
        }
        if stop.is_none() && here > 0 {
            let skip = before.saturating_sub(seen).min(here);
            let replayed = resume(image, &part, skip);
            done += replayed.steps;
            let met = || met(records, before + done + 1, &part, skip + replayed.steps);
            stop = replayed.stop.map(|refusal| Stop {
                refusal,
                met: met(),
            });
        }
        seen += here;
        progress.add(here);
        // Behind a stop only the end is looked for, if it is not known.
        if here == 0 || stop.is_some() && known.is_some() {
            break;
        }
    }
    match seen < before {
        true => Ok((0, Some(fewer()))),
        false => Ok((done, stop)),
    }
}

/// What met a refusal: record `at` of a part, which is this step.
fn met(records: &Records, step: u64, part: &[u8], at: u64) -> String {
    let record = part.chunks_exact(STEP).nth(at as usize);
    records.met(step, record.unwrap_or(&[]))
}

fn fewer() -> Stop {
    short("the journal, which has fewer steps than --done")
}

fn cut() -> Stop {
    short("the journal, which ends within a record")
}

fn short(met: &str) -> Stop {
    Stop {
        refusal: Refusal::Length,
        met: met.to_string(),
    }
}

/// The next records, how many they are, and whether the last is cut short.
fn part(records: &mut Records) -> Result<(Vec<u8>, u64, bool), Failure> {
    let mut bytes = Vec::with_capacity(PART * STEP);
    while bytes.len() < PART * STEP {
        match records.next()? {
            Next::Record(record) => bytes.extend(record),
            Next::Cut(_) => return Ok((bytes, 0, true)),
            Next::End => break,
        }
    }
    let count = bytes.len() / STEP;
    Ok((bytes, count as u64, false))
}
