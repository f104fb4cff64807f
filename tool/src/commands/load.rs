//! `zemawulo load`: the load of a seed.

use zemawulo::bytes::STEP;

use super::Command;
use crate::failure::Failure;
use crate::files::Output;
use crate::options::Options;
use crate::progress::Progress;

/// The steps that are written at one time.
const PART: usize = 65_536;

pub const LOAD: Command = Command {
    name: "load",
    summary: "write the load of a seed, the same everywhere",
    help: "
usage: zemawulo load --seed N --steps N [--members LIST --f N [--r N]] [-o FILE]

Writes a journal of so many steps, drawn from the seed: the same bytes on every machine. All of it is in memory, 12 bytes a step.

--seed N        the seed, 0 to 4,294,967,295; 0 stands for 1
--steps N       how many steps
--members LIST  the servers of a world, as 1,2,3,4: with --f, its record comes first, so that `run` takes the file
--f N           the threshold of that world
--r N           its read size; without it a quorum
-o FILE         writes to this file, not to standard output
",
    flags: &[
        ("--seed", true),
        ("--steps", true),
        ("--members", true),
        ("--f", true),
        ("--r", true),
        ("-o", true),
    ],
    run,
};

fn run(options: &Options) -> Result<(), Failure> {
    let [] = options.files([])?;
    let (seed, steps) = (options.number("--seed")?, options.number::<u32>("--steps")?);
    let mut bytes = Vec::new();
    let length = STEP.saturating_mul(steps as usize);
    if bytes.try_reserve_exact(length).is_err() {
        let what =
            format!("a load of {steps} steps needs {length} bytes of memory, which are not there");
        return Err(Failure::Usage(what));
    }
    bytes.resize(length, 0);
    zemawulo::bytes::load(&mut bytes, seed, steps)
        .map_err(|refusal| Failure::refused("load", refusal))?;
    let first = first_record(options)?;
    let mut output = Output::create(options.flag("-o"))?;
    output.put(&first)?;
    let mut progress = Progress::of("steps");
    for part in bytes.chunks(PART * STEP) {
        output.put(part)?;
        progress.add(PART as u64);
    }
    output.finish()
}

fn first_record(options: &Options) -> Result<Vec<u8>, Failure> {
    if !["--members", "--f", "--r"]
        .iter()
        .any(|flag| options.has(flag))
    {
        return Ok(Vec::new());
    }
    Ok(options.world()?.to_bytes().to_vec())
}
