//! How a command ends when it is not done.

use std::fmt::Display;
use std::io;

use zemawulo::Refusal;

#[derive(Debug)]
pub enum Failure {
    /// The library refused: exit status 1.
    Refused(String),
    /// The command line, a file or a text is not as it must be: exit status 2.
    Usage(String),
    /// Who read standard output has heard enough: exit status 2, no words.
    Enough,
}

impl Failure {
    pub fn status(&self) -> u8 {
        match self {
            Failure::Refused(_) => 1,
            Failure::Usage(_) | Failure::Enough => 2,
        }
    }

    pub fn words(&self) -> Option<&str> {
        match self {
            Failure::Refused(words) | Failure::Usage(words) => Some(words),
            Failure::Enough => None,
        }
    }

    /// A refusal, with what met it.
    pub fn refused(what: impl Display, refusal: Refusal) -> Failure {
        Failure::Refused(format!("{what}: {refusal}"))
    }

    /// A file that cannot be read or written.
    pub fn file(name: &str, error: io::Error) -> Failure {
        Failure::Usage(format!("{name}: {error}"))
    }
}
