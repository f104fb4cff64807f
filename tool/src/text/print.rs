//! A record as a line.

use zemawulo::Numbers;

use super::forms::{Field, Form, Format, Shape, RAW, RAW_FIELD};

/// The line of a record.
pub fn print(format: &Format, record: &[u8]) -> String {
    let fitting = format.forms.iter().find(|form| fits(format, form, record));
    match fitting {
        Some(form) if form.bare && form.fields.iter().all(|field| of(field, record) == 0) => {
            form.word.to_string()
        }
        Some(form) => {
            let fields = form.fields.iter();
            let fields = fields.filter(|field| !field.left_out || of(field, record) != 0);
            let fields = fields.map(|field| written(field, record));
            let words: Vec<String> = fields.collect();
            format!("{} {}", form.word, words.join(" "))
        }
        None => {
            let digits: String = record.iter().map(|byte| format!("{byte:02x}")).collect();
            format!("{RAW} {RAW_FIELD}={digits}")
        }
    }
}

/// Whether a record has a form's kind, and zero wherever the form has no field.
fn fits(format: &Format, form: &Form, record: &[u8]) -> bool {
    record.len() == format.width
        && record.iter().enumerate().all(|(place, byte)| {
            if Some(place) == format.kind_at {
                return *byte == form.kind;
            }
            let used = |field: &Field| (field.at..field.at + field.width).contains(&place);
            *byte == 0 || form.fields.iter().any(used)
        })
}

/// A field's number in a record.
fn of(field: &Field, record: &[u8]) -> u32 {
    let bytes = record.iter().skip(field.at).take(field.width);
    bytes
        .rev()
        .fold(0, |number, byte| number << 8 | u32::from(*byte))
}

fn written(field: &Field, record: &[u8]) -> String {
    let number = of(field, record);
    match field.shape {
        Shape::Number => format!("{}={number}", field.name),
        Shape::Members => format!("{}={}", field.name, Numbers::from_bits(number)),
    }
}
