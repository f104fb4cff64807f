//! Entries and their stamps.

/// What a server holds: a count, a writer and a value. The three bytes between
/// writer and value are kept as they stand in the image, so that nothing is
/// lost between an image and its decoded form; a readable image has them zero.
#[derive(Clone, Copy, Debug, Default, PartialEq, Eq, Hash)]
pub struct Entry {
    pub count: u32,
    pub writer: u8,
    pub spare: [u8; 3],
    pub value: u32,
}

/// What entries are compared by: the count first, then the writer.
#[derive(Clone, Copy, Debug, PartialEq, Eq, PartialOrd, Ord)]
pub struct Stamp {
    pub count: u32,
    pub writer: u8,
}

impl Entry {
    /// The empty entry.
    pub const EMPTY: Entry = Entry::new(0, 0, 0);

    pub const fn new(count: u32, writer: u8, value: u32) -> Entry {
        Entry {
            count,
            writer,
            spare: [0; 3],
            value,
        }
    }

    pub fn stamp(&self) -> Stamp {
        Stamp {
            count: self.count,
            writer: self.writer,
        }
    }

    pub fn is_empty(&self) -> bool {
        *self == Entry::EMPTY
    }

    /// The entry that a server keeps when another is written to it: the larger
    /// stamp, and its own when the stamps are equal.
    pub fn keep_larger(&self, written: &Entry) -> Entry {
        if written.stamp() > self.stamp() {
            *written
        } else {
            *self
        }
    }
}
