//! `zemawulo shorten`: the short journal behind a refusal.

use zemawulo::bytes::{SHORTEN_STEPS, STEP};
use zemawulo::{Image, Refusal, Step};

use super::Command;
use crate::failure::Failure;
use crate::files;
use crate::options::Options;
use crate::records::{self, step_of, Records};
use crate::text::{print, JOURNAL};

pub const SHORTEN: Command = Command {
    name: "shorten",
    summary: "find the few steps behind a refusal",
    help: "
usage: zemawulo shorten INPUT [--text] [-o FILE]

Finds the short journal behind the refusal that stops an input of at most 512 steps: it stops with the same refusal, and no longer
does when any single step is dropped. Prints it as text, with its world; an input that meets no refusal is refused with 15.

INPUT    bytes, or text if its name ends in .txt; - is standard input
--text   INPUT is text, whatever its name
-o FILE  writes it as bytes, and prints nothing
",
    flags: &[("--text", false), ("-o", true)],
    run,
};

fn run(options: &Options) -> Result<(), Failure> {
    let [name] = options.files(["INPUT"])?;
    let mut records = Records::open(name, options.has("--text"), &JOURNAL)?;
    let world = records::world(&mut records)?.map_err(|stop| stop.failure())?;
    let journal = records.all(SHORTEN_STEPS * STEP)?;
    if journal.len() % STEP != 0 {
        return Err(Failure::refused(name, Refusal::Length));
    }
    let steps: Vec<Step> = journal.chunks_exact(STEP).map(step_of).collect();
    let short =
        zemawulo::shorten(world, &steps).map_err(|refusal| Failure::refused(name, refusal))?;
    let mut bytes = world.to_bytes().to_vec();
    bytes.extend(Step::journal(&short));
    if options.has("-o") {
        return files::write(options.flag("-o"), &bytes);
    }
    let lines = bytes
        .chunks_exact(STEP)
        .map(|record| print(&JOURNAL, record));
    let mut lines: Vec<String> = lines.collect();
    lines.extend(why(Image::fresh(world), &short));
    files::say(&lines.join("\n"))
}

/// The refusal that the short journal stops with, as a comment.
fn why(image: Result<Image, Refusal>, short: &[Step]) -> Option<String> {
    let stop = image.ok()?.replay(&Step::journal(short)).stop?;
    Some(format!("# {stop}"))
}
