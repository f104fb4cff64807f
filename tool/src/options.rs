//! The words of a command line.

use zemawulo::{Numbers, World};

use crate::commands::Command;
use crate::failure::Failure;
use crate::text::members;

/// The files and the flags of a command, as given.
pub struct Options {
    command: &'static str,
    files: Vec<String>,
    flags: Vec<(&'static str, String)>,
}

impl Options {
    /// Sorts the words behind a command's name. A flag that takes a value has
    /// it behind `=` or as the next word.
    pub fn read(command: &Command, words: &[String]) -> Result<Options, Failure> {
        let mut options = Options {
            command: command.name,
            files: Vec::new(),
            flags: Vec::new(),
        };
        let mut words = words.iter();
        while let Some(word) = words.next() {
            if !word.starts_with('-') || word == "-" {
                options.files.push(word.clone());
                continue;
            }
            let (name, behind) = match word.split_once('=') {
                Some((name, value)) => (name, Some(value.to_string())),
                None => (word.as_str(), None),
            };
            let Some((flag, takes)) = command.flags.iter().find(|(flag, _)| *flag == name) else {
                return Err(options.bad(&format!("there is no flag `{name}`")));
            };
            let value = match (takes, behind) {
                (true, Some(value)) => value,
                (true, None) => match words.next() {
                    Some(value) => value.clone(),
                    None => return Err(options.bad(&format!("`{flag}` needs a value"))),
                },
                (false, None) => String::new(),
                (false, Some(_)) => return Err(options.bad(&format!("`{flag}` takes no value"))),
            };
            if options.flag(flag).is_some() {
                return Err(options.bad(&format!("`{flag}` stands twice")));
            }
            options.flags.push((flag, value));
        }
        Ok(options)
    }

    pub fn bad(&self, what: &str) -> Failure {
        let name = self.command;
        Failure::Usage(format!(
            "{name}: {what}; `zemawulo {name} --help` says more"
        ))
    }

    /// The words that are no flags, exactly so many.
    pub fn files<const N: usize>(&self, named: [&str; N]) -> Result<[&str; N], Failure> {
        let files: Vec<&str> = self.files.iter().map(String::as_str).collect();
        files.try_into().map_err(|_| {
            let wanted = match N {
                0 => "no file".to_string(),
                _ => named.join(" and "),
            };
            self.bad(&format!(
                "expected {wanted}, found {} words",
                self.files.len()
            ))
        })
    }

    /// How many words are no flags.
    pub fn count(&self) -> usize {
        self.files.len()
    }

    pub fn flag(&self, name: &str) -> Option<&str> {
        let found = self.flags.iter().find(|(flag, _)| *flag == name);
        found.map(|(_, value)| value.as_str())
    }

    pub fn has(&self, name: &str) -> bool {
        self.flag(name).is_some()
    }

    fn needed(&self, name: &str) -> Result<&str, Failure> {
        self.flag(name)
            .ok_or_else(|| self.bad(&format!("`{name}` is missing")))
    }

    /// A number that must be given.
    pub fn number<T: std::str::FromStr>(&self, name: &str) -> Result<T, Failure> {
        let value = self.needed(name)?;
        self.parsed(name, value)
    }

    /// A number that may be given.
    pub fn optional<T: std::str::FromStr>(&self, name: &str) -> Result<Option<T>, Failure> {
        self.flag(name)
            .map(|value| self.parsed(name, value))
            .transpose()
    }

    pub fn parsed<T: std::str::FromStr>(&self, name: &str, value: &str) -> Result<T, Failure> {
        let digits = !value.is_empty() && value.bytes().all(|byte| byte.is_ascii_digit());
        let number = digits.then(|| value.parse().ok()).flatten();
        number.ok_or_else(|| self.bad(&format!("`{name}` has no number in range: `{value}`")))
    }

    /// The world of `--members`, `--f` and, if it is given, `--r`.
    pub fn world(&self) -> Result<World, Failure> {
        Ok(World {
            members: self.members()?,
            f: self.number("--f")?,
            r: self.optional("--r")?.unwrap_or(0),
        })
    }

    /// The servers of `--members`.
    fn members(&self) -> Result<Numbers, Failure> {
        let value = self.needed("--members")?;
        members(value).ok_or_else(|| {
            self.bad(&format!(
                "`--members` is a list as 1,2,3,4 or `none`, not `{value}`"
            ))
        })
    }
}
