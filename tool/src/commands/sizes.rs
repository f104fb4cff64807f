//! `zemawulo fresh` and `zemawulo quorum`.

use zemawulo::Image;

use super::Command;
use crate::failure::Failure;
use crate::files;
use crate::options::Options;
use crate::text::{print, JOURNAL};

pub const FRESH: Command = Command {
    name: "fresh",
    summary: "make the image of a fresh world",
    help: "
usage: zemawulo fresh --members LIST --f N [--r N] -o IMAGE

Writes the image of a fresh world: view 1 has these servers, each with its key and the empty entry.

--members LIST  the servers, as 1,2,3,4
--f N           how many of them may be faulty; at least 3f+1 servers are needed
--r N           how many of them close READ: at least 2f+1, and twice r at most n+f+1; without it, or with 0, a quorum
-o IMAGE        writes to this file, - is standard output
",
    flags: &[
        ("--members", true),
        ("--f", true),
        ("--r", true),
        ("-o", true),
    ],
    run: fresh,
};

fn fresh(options: &Options) -> Result<(), Failure> {
    let [] = options.files([])?;
    let world = options.world()?;
    if !options.has("-o") {
        return Err(options.bad("`-o` is missing"));
    }
    let image = Image::fresh(world)
        .map_err(|refusal| Failure::refused(print(&JOURNAL, &world.to_bytes()), refusal))?;
    files::write(options.flag("-o"), image.as_bytes())
}

pub const QUORUM: Command = Command {
    name: "quorum",
    summary: "tell how many of n servers close a phase",
    help: "
usage: zemawulo quorum N F [--r N]

Prints how many of N servers close READ, and how many WRITE and END, if F of them may be faulty.

--r N  the read size: at least 2f+1, and twice r at most n+f+1; without it, or with 0, a quorum for everything
",
    flags: &[("--r", true)],
    run: quorum,
};

fn quorum(options: &Options) -> Result<(), Failure> {
    let [n, f] = options.files(["N", "F"])?;
    let (n, f) = (options.parsed("N", n)?, options.parsed("F", f)?);
    let r = options.optional("--r")?.unwrap_or(0);
    match zemawulo::quorum(n, f, r) {
        Ok(sizes) => files::say(&format!("read={} write={}", sizes.read, sizes.write)),
        Err(refusal) => Err(Failure::refused(format!("n={n} f={f} r={r}"), refusal)),
    }
}
