//! `zemawulo page`: a run as one page for a browser.

use super::Command;
use crate::failure::Failure;
use crate::files;
use crate::options::Options;
use crate::page::page;
use crate::records::Records;
use crate::text::JOURNAL;

pub const PAGE: Command = Command {
    name: "page",
    summary: "write a run as one page for a browser",
    help: "
usage: zemawulo page INPUT [--text] [--all] [-o FILE]

Writes one HTML file that needs nothing else and no network: the operations along the steps, which read returns which write, servers
and their keys, messages as arrows, the premise along the run, and a slider and keys to walk through it step by step. At most 20,000
steps.

INPUT    as `run` takes it: bytes, or text if its name ends in .txt; - is standard input
--text   INPUT is text, whatever its name
--all    goes on behind a refused step, which changes nothing; without it the page ends there, as `run` does
-o FILE  writes to this file, not to standard output
",
    flags: &[("--text", false), ("--all", false), ("-o", true)],
    run,
};

fn run(options: &Options) -> Result<(), Failure> {
    let [name] = options.files(["INPUT"])?;
    let mut records = Records::open(name, options.has("--text"), &JOURNAL)?;
    let title = name.rsplit('/').next().unwrap_or(name);
    let page = page(&mut records, title, options.has("--all"))?;
    files::write(options.flag("-o"), page.as_bytes())
}
