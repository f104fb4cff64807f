//! `zemawulo watch`: a replay that watches the premise.

use zemawulo::Image;

use super::replay::{finish, image, replay};
use super::Command;
use crate::failure::Failure;
use crate::files;
use crate::options::Options;
use crate::records::{self, Records};
use crate::text::JOURNAL;

pub const WATCH: Command = Command {
    name: "watch",
    summary: "replay, and tell the first step that breaks the premise",
    help: "
usage: zemawulo watch INPUT [--text] [-o IMAGE [--keep]]
       zemawulo watch IMAGE JOURNAL [--text] [-o IMAGE [--keep]]

Does the steps of an input on its world, or those of a journal on an image, up to the first that is refused. Tells the first step
after which the premise does not hold, that is, after which some view has more faulty servers with its key than its f. Then prints
`done`, the steps done, and the number of the refusal, or 0.

INPUT     as `run` takes it: its world, then its steps
IMAGE     an image, as `fresh`, `run` and `replay` write it; it is not changed
JOURNAL   steps alone
          INPUT and JOURNAL are bytes, or text if the name ends in .txt; - is standard input
--text    INPUT or JOURNAL is text, whatever its name
-o IMAGE  writes the image at the end; beside a refusal only with --keep
--keep    writes the image of the steps accepted before a refusal too
",
    flags: &[("--text", false), ("-o", true), ("--keep", false)],
    run,
};

fn run(options: &Options) -> Result<(), Failure> {
    let (mut image, mut records) = begin(options)?;
    let (mut before, mut first) = (0, None);
    let watch = |image: &mut Image, part: &[u8], _| {
        let (replayed, broken) = image.watch(part);
        first = first.or(broken.map(|step| before + step));
        before += replayed.steps;
        replayed
    };
    let (steps, stop) = replay(&mut records, &mut image, 0, watch)?;
    files::say(&match first.filter(|_| steps > 0) {
        Some(step) => format!("the premise does not hold from step {step} on"),
        None => "the premise holds after every step".to_string(),
    })?;
    finish(options, &image, steps, stop)
}

/// The image and the steps of the words given.
fn begin(options: &Options) -> Result<(Image, Records), Failure> {
    let open = |name| Records::open(name, options.has("--text"), &JOURNAL);
    if options.count() == 1 {
        let [name] = options.files(["INPUT"])?;
        let mut records = open(name)?;
        let image = records::fresh(&mut records)?.map_err(|stop| stop.failure())?;
        return Ok((image, records));
    }
    let [name, journal] = options.files(["INPUT, or IMAGE", "JOURNAL"])?;
    Ok((image(name)?, open(journal)?))
}
