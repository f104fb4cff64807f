//! The 12 bytes of a step, and check 3: which fields each kind uses.

use crate::layout::{LAST_CLIENT, LAST_MESSAGE, LAST_SERVER, LAST_VIEW, STEP_SIZE};
use crate::refusal::Reason;

/// Kinds of steps.
pub mod step_kind {
    /// The first record of the program: not a step.
    pub const FRESH: u8 = 0;
    pub const WRITE: u8 = 1;
    pub const READ: u8 = 2;
    pub const DELIVER: u8 = 3;
    pub const TAKE: u8 = 4;
    pub const FAULT: u8 = 5;
    pub const FALSE_ANSWER: u8 = 6;
    pub const NEW_VIEW: u8 = 7;
    pub const GIVE_UP: u8 = 8;
    pub const RESTART: u8 = 9;
    /// The last kind there is.
    pub const LAST: u8 = RESTART;
}

#[derive(Clone, Copy, Debug, Default, PartialEq, Eq)]
pub struct Step {
    pub kind: u8,
    pub who: u8,
    pub view: u8,
    pub f: u8,
    pub message: u16,
    pub source: u16,
    pub value: u32,
}

/// A field of a step other than its kind.
#[derive(Clone, Copy, Debug, PartialEq, Eq, Hash, PartialOrd, Ord)]
pub enum Field {
    Who,
    View,
    F,
    Message,
    Source,
    Value,
}

pub const FIELDS: [Field; 6] = [
    Field::Who,
    Field::View,
    Field::F,
    Field::Message,
    Field::Source,
    Field::Value,
];

/// The least and the largest number a used field may hold; `None` where the
/// kind does not use the field, which is then zero.
pub type Range = Option<(u32, u32)>;

const UNUSED: Range = None;
const CLIENT: Range = Some((1, LAST_CLIENT as u32));
const SERVER: Range = Some((1, LAST_SERVER as u32));
const VIEW: Range = Some((1, LAST_VIEW as u32));
const MESSAGE: Range = Some((1, LAST_MESSAGE as u32));
const SOURCE: Range = Some((0, LAST_MESSAGE as u32));
const ANY: Range = Some((0, u32::MAX));

/// For each kind from 1 on, the range of each field in the order of `FIELDS`.
const USED: [[Range; 6]; step_kind::LAST as usize] = [
    // who, view, f, message, source, value
    [CLIENT, UNUSED, UNUSED, UNUSED, UNUSED, ANY], // write
    [CLIENT, UNUSED, UNUSED, UNUSED, UNUSED, UNUSED], // read
    [SERVER, UNUSED, UNUSED, MESSAGE, UNUSED, UNUSED], // deliver
    [UNUSED, UNUSED, UNUSED, MESSAGE, UNUSED, UNUSED], // take
    [SERVER, UNUSED, UNUSED, UNUSED, UNUSED, UNUSED], // fault
    [SERVER, VIEW, UNUSED, MESSAGE, SOURCE, UNUSED], // false answer
    [ANY, UNUSED, ANY, UNUSED, UNUSED, ANY],       // new view
    [CLIENT, UNUSED, UNUSED, UNUSED, UNUSED, UNUSED], // give up
    [ANY, UNUSED, ANY, UNUSED, UNUSED, ANY],       // restart
];

/// The ranges of a step of this kind, if there is such a kind.
pub fn ranges(kind: u8) -> Option<&'static [Range; FIELDS.len()]> {
    USED.get(usize::from(kind).checked_sub(1)?)
}

impl Step {
    pub fn load(bytes: &[u8; STEP_SIZE]) -> Step {
        Step {
            kind: bytes[0],
            who: bytes[1],
            view: bytes[2],
            f: bytes[3],
            message: u16::from_le_bytes([bytes[4], bytes[5]]),
            source: u16::from_le_bytes([bytes[6], bytes[7]]),
            value: u32::from_le_bytes([bytes[8], bytes[9], bytes[10], bytes[11]]),
        }
    }

    pub fn bytes(&self) -> [u8; STEP_SIZE] {
        let message = self.message.to_le_bytes();
        let source = self.source.to_le_bytes();
        let value = self.value.to_le_bytes();
        [
            self.kind, self.who, self.view, self.f, message[0], message[1], source[0], source[1],
            value[0], value[1], value[2], value[3],
        ]
    }

    pub fn field(&self, field: Field) -> u32 {
        match field {
            Field::Who => u32::from(self.who),
            Field::View => u32::from(self.view),
            Field::F => u32::from(self.f),
            Field::Message => u32::from(self.message),
            Field::Source => u32::from(self.source),
            Field::Value => self.value,
        }
    }

    /// Puts the number, which fits it, into the field.
    pub fn set(&mut self, field: Field, number: u32) {
        match field {
            Field::Who => self.who = number as u8,
            Field::View => self.view = number as u8,
            Field::F => self.f = number as u8,
            Field::Message => self.message = number as u16,
            Field::Source => self.source = number as u16,
            Field::Value => self.value = number,
        }
    }

    /// Check 3: the kind is known, the fields it uses are in range and the
    /// others are zero. It looks at the step alone.
    pub fn check(&self) -> Result<(), Reason> {
        let ranges = ranges(self.kind).ok_or(Reason::UnknownKind)?;
        for (field, range) in FIELDS.into_iter().zip(ranges) {
            let number = self.field(field);
            match *range {
                Some((least, largest)) if number < least || number > largest => {
                    return Err(Reason::OutOfRange(field));
                }
                None if number != 0 => return Err(Reason::Unused(field)),
                _ => {}
            }
        }
        // A restart without member bits names neither a threshold nor a size.
        if self.kind == step_kind::RESTART && self.value == 0 {
            for field in [Field::Who, Field::F] {
                if self.field(field) != 0 {
                    return Err(Reason::Unused(field));
                }
            }
        }
        Ok(())
    }
}

/// A step's record for each kind, with the fields it uses.
impl Step {
    pub fn write(client: u8, value: u32) -> Step {
        Step {
            kind: step_kind::WRITE,
            who: client,
            value,
            ..Step::default()
        }
    }

    pub fn read(client: u8) -> Step {
        Step {
            kind: step_kind::READ,
            who: client,
            ..Step::default()
        }
    }

    pub fn deliver(server: u8, message: u16) -> Step {
        Step {
            kind: step_kind::DELIVER,
            who: server,
            message,
            ..Step::default()
        }
    }

    pub fn take(message: u16) -> Step {
        Step {
            kind: step_kind::TAKE,
            message,
            ..Step::default()
        }
    }

    pub fn fault(server: u8) -> Step {
        Step {
            kind: step_kind::FAULT,
            who: server,
            ..Step::default()
        }
    }

    pub fn false_answer(server: u8, view: u8, message: u16, source: u16) -> Step {
        Step {
            kind: step_kind::FALSE_ANSWER,
            who: server,
            view,
            message,
            source,
            ..Step::default()
        }
    }

    pub fn new_view(members: u32, f: u8) -> Step {
        Step::sized_view(members, f, 0)
    }

    /// A new view with a read size.
    pub fn sized_view(members: u32, f: u8, r: u8) -> Step {
        Step {
            kind: step_kind::NEW_VIEW,
            who: r,
            f,
            value: members,
            ..Step::default()
        }
    }

    pub fn give_up(client: u8) -> Step {
        Step {
            kind: step_kind::GIVE_UP,
            who: client,
            ..Step::default()
        }
    }

    /// The administrator restarted; no members leave the pending view as it is.
    pub fn restart(members: u32, f: u8, r: u8) -> Step {
        Step {
            kind: step_kind::RESTART,
            who: r,
            f,
            value: members,
            ..Step::default()
        }
    }

    /// The program's first record.
    pub fn fresh(members: u32, f: u8, r: u8) -> Step {
        Step {
            kind: step_kind::FRESH,
            who: r,
            f,
            value: members,
            ..Step::default()
        }
    }
}
