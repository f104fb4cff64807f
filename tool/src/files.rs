//! Files and standard streams. What is written to a file is there whole or not
//! at all.

use std::fs::{self, File};
use std::io::{self, BufReader, BufWriter, Read, Write};
use std::path::PathBuf;

use crate::failure::Failure;

/// A file that is read, `-` for standard input. The length is known where the
/// file is a plain one.
pub struct Input {
    pub name: String,
    pub length: Option<u64>,
    pub reader: Box<dyn Read>,
}

impl Input {
    pub fn open(name: &str) -> Result<Input, Failure> {
        if name == "-" {
            return Ok(Input {
                name: "standard input".to_string(),
                length: None,
                reader: Box::new(io::stdin()),
            });
        }
        let file = File::open(name).map_err(|error| Failure::file(name, error))?;
        let data = file
            .metadata()
            .map_err(|error| Failure::file(name, error))?;
        if data.is_dir() {
            return Err(Failure::Usage(format!("{name}: this is a folder")));
        }
        Ok(Input {
            name: name.to_string(),
            length: data.is_file().then_some(data.len()),
            reader: Box::new(BufReader::with_capacity(1 << 16, file)),
        })
    }

    /// All bytes, but not more than one above a limit: longer input is refused
    /// for its length all the same.
    pub fn up_to(mut self, limit: usize) -> Result<Vec<u8>, Failure> {
        let mut bytes = Vec::new();
        let mut part = (&mut self.reader).take(limit as u64 + 1);
        match part.read_to_end(&mut bytes) {
            Ok(_) => Ok(bytes),
            Err(error) => Err(Failure::file(&self.name, error)),
        }
    }
}

/// A file that is written, standard output without a name. A named one appears
/// under its name only by `finish`.
pub struct Output {
    name: String,
    writer: Option<BufWriter<Box<dyn Write>>>,
    place: Option<PathBuf>,
}

impl Output {
    pub fn create(name: Option<&str>) -> Result<Output, Failure> {
        let Some(name) = name.filter(|name| *name != "-") else {
            return Ok(Output {
                name: "standard output".to_string(),
                writer: Some(BufWriter::new(Box::new(io::stdout()))),
                place: None,
            });
        };
        let place = PathBuf::from(format!("{name}.part"));
        let file = File::create(&place).map_err(|error| Failure::file(name, error))?;
        Ok(Output {
            name: name.to_string(),
            writer: Some(BufWriter::with_capacity(1 << 16, Box::new(file))),
            place: Some(place),
        })
    }

    pub fn put(&mut self, bytes: &[u8]) -> Result<(), Failure> {
        match &mut self.writer {
            Some(writer) => heard(&self.name, writer.write_all(bytes)),
            None => Ok(()),
        }
    }

    pub fn line(&mut self, line: &str) -> Result<(), Failure> {
        self.put(line.as_bytes())?;
        self.put(b"\n")
    }

    pub fn finish(mut self) -> Result<(), Failure> {
        let name = self.name.clone();
        if let Some(mut writer) = self.writer.take() {
            heard(&name, writer.flush())?;
        }
        if let Some(place) = self.place.take() {
            fs::rename(place, &name).map_err(|error| Failure::file(&name, error))?;
        }
        Ok(())
    }
}

/// What is written, or why not.
fn heard(name: &str, written: io::Result<()>) -> Result<(), Failure> {
    match written {
        Err(error) if error.kind() == io::ErrorKind::BrokenPipe => Err(Failure::Enough),
        Err(error) => Err(Failure::file(name, error)),
        Ok(()) => Ok(()),
    }
}

impl Drop for Output {
    /// What was not finished leaves nothing behind; standard output keeps what
    /// was said before a refusal.
    fn drop(&mut self) {
        if let Some(mut writer) = self.writer.take() {
            let _ = writer.flush();
        }
        if let Some(place) = self.place.take() {
            let _ = fs::remove_file(place);
        }
    }
}

/// Writes a whole file, or standard output.
pub fn write(name: Option<&str>, bytes: &[u8]) -> Result<(), Failure> {
    let mut output = Output::create(name)?;
    output.put(bytes)?;
    output.finish()
}

/// Lines on standard output.
pub fn say(words: &str) -> Result<(), Failure> {
    write(None, format!("{words}\n").as_bytes())
}
