//! The forms of a line: a word and its fields. One row here is all that a new
//! kind or field needs.

use zemawulo::bytes::{LOG_LINE, STEP, UNSIGNED_ANSWER};

/// Where a field stands in its record, and how it is written.
pub struct Field {
    pub name: &'static str,
    pub at: usize,
    pub width: usize,
    pub shape: Shape,
    /// Whether it is left out where it is 0. It is then the last of its line.
    pub left_out: bool,
}

#[derive(Clone, Copy, PartialEq, Eq)]
pub enum Shape {
    Number,
    /// Bits of the numbers 1 to 32.
    Members,
}

/// A kind of record: its word, the number of its kind, its fields in the order
/// in which they are written.
pub struct Form {
    pub word: &'static str,
    pub kind: u8,
    pub fields: &'static [Field],
    /// Whether the word stands alone where all its fields are 0.
    pub bare: bool,
}

/// The records of a file. `kind_at` is the place of the kind, where they have
/// one. A record that no form fits, or with a byte set that its form does not
/// use, has the raw form.
pub struct Format {
    pub width: usize,
    pub kind_at: Option<usize>,
    pub forms: &'static [Form],
}

/// The word of a record in its raw form, and its field of hexadecimal digits.
pub const RAW: &str = "raw";
pub const RAW_FIELD: &str = "bytes";

const fn number(name: &'static str, at: usize, width: usize) -> Field {
    Field {
        name,
        at,
        width,
        shape: Shape::Number,
        left_out: false,
    }
}

const CLIENT: Field = number("client", 1, 1);
const SERVER: Field = number("server", 1, 1);
const VIEW: Field = number("view", 2, 1);
const F: Field = number("f", 3, 1);
const MESSAGE: Field = number("message", 4, 2);
const SOURCE: Field = number("source", 6, 2);
const VALUE: Field = number("value", 8, 4);
const MEMBERS: Field = Field {
    name: "members",
    at: 8,
    width: 4,
    shape: Shape::Members,
    left_out: false,
};
/// The read size of a view, 0 for a quorum.
const R: Field = Field {
    left_out: true,
    ..number("r", 1, 1)
};

const fn form(word: &'static str, kind: u8, fields: &'static [Field]) -> Form {
    Form {
        word,
        kind,
        fields,
        bare: false,
    }
}

/// A restart of the administrator: alone it leaves the pending view as it is.
const RESTART: Form = Form {
    bare: true,
    ..form("restart", 9, &[MEMBERS, F, R])
};

/// Steps, and the first record of an input, which makes the world.
pub const JOURNAL: Format = Format {
    width: STEP,
    kind_at: Some(0),
    forms: &[
        form("world", 0, &[MEMBERS, F, R]),
        form("write", 1, &[CLIENT, VALUE]),
        form("read", 2, &[CLIENT]),
        form("deliver", 3, &[SERVER, MESSAGE]),
        form("take", 4, &[MESSAGE]),
        form("fault", 5, &[SERVER]),
        form("false-answer", 6, &[SERVER, VIEW, MESSAGE, SOURCE]),
        form("new-view", 7, &[MEMBERS, F, R]),
        form("give-up", 8, &[CLIENT]),
        RESTART,
    ],
};

const LOG_FIELDS: &[Field] = &[
    number("begin", 0, 2),
    number("end", 2, 2),
    number("count", 8, 4),
    number("writer", 12, 1),
    number("value", 16, 4),
];

/// The operations of a log.
pub const LOG: Format = Format {
    width: LOG_LINE,
    kind_at: Some(4),
    forms: &[form("write", 1, LOG_FIELDS), form("read", 2, LOG_FIELDS)],
};

/// Answers without a signature.
pub const ANSWERS: Format = Format {
    width: UNSIGNED_ANSWER,
    kind_at: None,
    forms: &[form(
        "answer",
        0,
        &[
            number("server", 0, 1),
            number("count", 4, 4),
            number("writer", 8, 1),
            number("value", 12, 4),
        ],
    )],
};
