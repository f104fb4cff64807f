//! A line as a record. An error names the column and what was expected there.

use zemawulo::Numbers;

use super::forms::{Field, Form, Format, Shape, RAW, RAW_FIELD};

/// What is wrong with a line, and where: the column counts characters from 1.
#[derive(Debug, PartialEq, Eq)]
pub struct Wrong {
    pub column: usize,
    pub expected: String,
    pub found: String,
}

/// A word of a line and where it begins.
struct Word<'a> {
    column: usize,
    text: &'a str,
}

struct Words<'a> {
    line: &'a str,
    at: usize,
}

impl<'a> Words<'a> {
    /// The words of a line up to its comment, if it has one.
    fn of(line: &'a str) -> Words<'a> {
        let line = line.split('#').next().unwrap_or("");
        Words { line, at: 0 }
    }

    fn column(&self) -> usize {
        self.line.get(..self.at).unwrap_or("").chars().count() + 1
    }

    /// The next word; at the end of the line an empty one.
    fn next(&mut self) -> Word<'a> {
        let rest = self.line.get(self.at..).unwrap_or("");
        let trimmed = rest.trim_start();
        let blank = rest.len() - trimmed.len();
        if trimmed.is_empty() {
            // Just behind the last word.
            let column = self.column();
            return Word { column, text: "" };
        }
        self.at += blank;
        let column = self.column();
        let text = trimmed.split(char::is_whitespace).next().unwrap_or("");
        self.at += text.len();
        Word { column, text }
    }
}

fn wrong(word: &Word, skip: usize, expected: String) -> Wrong {
    let found = match word.text.get(skip..).unwrap_or("") {
        "" => "the end of the line".to_string(),
        text => {
            let start: String = text.chars().take(24).collect();
            let dots = if start.len() < text.len() { "..." } else { "" };
            format!("`{}{dots}`", start.escape_debug())
        }
    };
    Wrong {
        column: word.column + skip,
        expected,
        found,
    }
}

/// The record of a line; none for a blank line or one that is all comment.
pub fn parse(format: &Format, line: &str) -> Result<Option<Vec<u8>>, Wrong> {
    let mut words = Words::of(line);
    let first = words.next();
    if first.text.is_empty() {
        return Ok(None);
    }
    let record = match format.forms.iter().find(|form| form.word == first.text) {
        Some(form) => fields(format, form, &mut words)?,
        None if first.text == RAW => raw(format, &words.next())?,
        None => return Err(wrong(&first, 0, any_word(format))),
    };
    let behind = words.next();
    match behind.text {
        "" => Ok(Some(record)),
        _ => Err(wrong(&behind, 0, "the end of the line".to_string())),
    }
}

fn any_word(format: &Format) -> String {
    let words = format.forms.iter().map(|form| format!("`{}`", form.word));
    let words: Vec<String> = words.collect();
    format!("one of {} or `{RAW}`", words.join(", "))
}

fn fields(format: &Format, form: &Form, words: &mut Words) -> Result<Vec<u8>, Wrong> {
    let mut record = vec![0; format.width];
    if let Some(place) = format.kind_at {
        record[place] = form.kind;
    }
    for (place, field) in form.fields.iter().enumerate() {
        let bare = form.bare && place == 0;
        let word = words.next();
        if bare && word.text.is_empty() {
            break;
        }
        let number = value(field, bare, &word)?;
        let bytes = number.to_le_bytes();
        record[field.at..field.at + field.width].copy_from_slice(&bytes[..field.width]);
    }
    Ok(record)
}

/// A field's number. The line may end before a field that is left out where it
/// is 0, and, if it is `bare`, before this one.
fn value(field: &Field, bare: bool, word: &Word) -> Result<u32, Wrong> {
    let last = u32::MAX >> (32 - 8 * field.width);
    let shape = match field.shape {
        Shape::Number => format!("a number from 0 to {last}"),
        Shape::Members => "servers as 1,2,3,4, each from 1 to 32, or none".to_string(),
    };
    if field.left_out && word.text.is_empty() {
        return Ok(0);
    }
    let Some(text) = named(field.name, word.text) else {
        let end = if field.left_out || bare {
            ", or the end of the line"
        } else {
            ""
        };
        return Err(wrong(
            word,
            0,
            format!("`{}=` and {shape}{end}", field.name),
        ));
    };
    let found = match field.shape {
        Shape::Number => digits(text).filter(|number| *number <= last),
        Shape::Members => members(text).map(Numbers::bits),
    };
    found.ok_or_else(|| wrong(word, field.name.len() + 1, shape))
}

/// What stands behind `name=`.
fn named<'a>(name: &str, word: &'a str) -> Option<&'a str> {
    word.strip_prefix(name)?.strip_prefix('=')
}

fn digits(text: &str) -> Option<u32> {
    let plain = !text.is_empty() && text.bytes().all(|byte| byte.is_ascii_digit());
    plain.then(|| text.parse().ok()).flatten()
}

/// A list of servers, each one time, or `none`.
pub fn members(text: &str) -> Option<Numbers> {
    if text == "none" {
        return Some(Numbers::default());
    }
    text.split(',').try_fold(Numbers::default(), |set, number| {
        let number = u8::try_from(digits(number)?).ok()?;
        let more = set.with(number);
        (more != set).then_some(more)
    })
}

fn raw(format: &Format, word: &Word) -> Result<Vec<u8>, Wrong> {
    let shape = format!("{} hexadecimal digits", 2 * format.width);
    let Some(text) = named(RAW_FIELD, word.text) else {
        return Err(wrong(word, 0, format!("`{RAW_FIELD}=` and {shape}")));
    };
    let digits: Option<Vec<u8>> = text
        .chars()
        .map(|digit| digit.to_digit(16).map(|number| number as u8))
        .collect();
    match digits {
        Some(digits) if digits.len() == 2 * format.width => {
            let pairs = digits.chunks_exact(2);
            Ok(pairs.map(|pair| pair[0] << 4 | pair[1]).collect())
        }
        _ => Err(wrong(word, RAW_FIELD.len() + 1, shape)),
    }
}
