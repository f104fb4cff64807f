//! `zemawulo vouch`: a choice among entries without a signature.

use zemawulo::bytes::UNSIGNED_ANSWER;
use zemawulo::{UnsignedAnswer, LAST_SERVER};

use super::Command;
use crate::failure::Failure;
use crate::files;
use crate::options::Options;
use crate::records::Records;
use crate::text::ANSWERS;

pub const VOUCH: Command = Command {
    name: "vouch",
    summary: "choose among entries without a signature",
    help: "
usage: zemawulo vouch ANSWERS --n N --b N [--largest N] [--text]

Of the entries that at least b+1 of n servers show, the one with the largest stamp; for equal stamps the smaller value. With 16 no
entry is shown by enough servers.

ANSWERS      bytes, or text if its name ends in .txt (answer server=1 count=3 writer=2 value=7); - is standard input
--n N        how many servers there are, at least 4b+1
--b N        how many of them may lie
--largest N  the choice for thresholds: the largest permitted b
--text       ANSWERS is text, whatever its name
",
    flags: &[
        ("--n", true),
        ("--b", true),
        ("--largest", true),
        ("--text", false),
    ],
    run,
};

fn run(options: &Options) -> Result<(), Failure> {
    let [name] = options.files(["ANSWERS"])?;
    let (n, b) = (options.number("--n")?, options.number("--b")?);
    let largest = options.optional("--largest")?;
    let mut records = Records::open(name, options.has("--text"), &ANSWERS)?;
    let list = records.all((usize::from(LAST_SERVER) + 1) * UNSIGNED_ANSWER)?;
    if list.len() % UNSIGNED_ANSWER != 0 {
        return Err(Failure::refused(name, zemawulo::Refusal::Length));
    }
    let answers = list.chunks_exact(UNSIGNED_ANSWER);
    let answers: Vec<UnsignedAnswer> = answers
        .map(|bytes| {
            UnsignedAnswer::from_bytes(bytes.try_into().unwrap_or([0xff; UNSIGNED_ANSWER]))
        })
        .collect();
    let chosen = match largest {
        None => zemawulo::vouch(&answers, n, b),
        Some(largest) => zemawulo::vouch_threshold(&answers, n, b, largest),
    };
    let entry = chosen.map_err(|refusal| Failure::refused(name, refusal))?;
    files::say(&entry.to_string())
}
