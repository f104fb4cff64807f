//! The commands: a row each, and a file each.

mod convert;
mod judge;
mod load;
mod page;
mod replay;
mod run;
mod shorten;
pub mod show;
mod sizes;
mod vouch;
mod watch;

use crate::failure::Failure;
use crate::options::Options;

pub struct Command {
    pub name: &'static str,
    pub summary: &'static str,
    pub help: &'static str,
    /// Its flags, and whether each takes a value.
    pub flags: &'static [(&'static str, bool)],
    pub run: fn(&Options) -> Result<(), Failure>,
}

pub const COMMANDS: &[Command] = &[
    run::RUN,
    replay::REPLAY,
    watch::WATCH,
    show::SHOW,
    page::PAGE,
    shorten::SHORTEN,
    judge::JUDGE,
    load::LOAD,
    vouch::VOUCH,
    sizes::FRESH,
    sizes::QUORUM,
    convert::TEXT,
    convert::BYTES,
];
