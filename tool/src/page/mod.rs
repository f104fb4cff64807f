//! A run as one page for a browser: what each step did, told by the library.

mod changes;
mod json;
mod operations;
mod story;

use crate::failure::Failure;
use crate::records::Records;

/// The most steps that a page shows.
pub const MOST: usize = 20_000;

const STYLE: &str = include_str!("page.css");
const SCRIPT: &str = include_str!("page.js");
const BODY: &str = include_str!("page.html");

/// The page of an input. `all` goes on behind a refused step.
pub fn page(records: &mut Records, title: &str, all: bool) -> Result<String, Failure> {
    let story = story::tell(records, all)?;
    let data = story.json(title);
    Ok(BODY
        .replace("{{title}}", &escaped(title))
        .replace("{{style}}", STYLE)
        .replace("{{script}}", SCRIPT)
        .replace("{{data}}", &data))
}

fn escaped(text: &str) -> String {
    text.replace('&', "&amp;")
        .replace('<', "&lt;")
        .replace('>', "&gt;")
}
