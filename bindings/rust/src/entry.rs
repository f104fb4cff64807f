//! What is filed.

use std::fmt;

use crate::bytes::ENTRY;
use crate::numbers::{part, record, u32_at, u8_at};

/// What a write files and a read returns: a stamp (count, writer) and a value.
/// The empty entry, all zero, is what stands before the first write.
///
/// ```
/// use zemawulo::Entry;
///
/// let entry = Entry::new(1, 2, 1500);
/// assert_eq!((entry.count(), entry.writer(), entry.value()), (1, 2, 1500));
/// assert_eq!(entry.to_string(), "count=1 writer=2 value=1500");
/// assert_eq!(Entry::from_bytes(entry.to_bytes()), entry);
/// assert!(Entry::default().is_empty());
/// ```
#[derive(Clone, Copy, Debug, Default, PartialEq, Eq, Hash)]
pub struct Entry([u8; ENTRY]);

impl Entry {
    /// The entry of a count, a writer and a value.
    pub fn new(count: u32, writer: u8, value: u32) -> Entry {
        let (count, value) = (count.to_le_bytes(), value.to_le_bytes());
        Entry(record(&[&count, &[writer, 0, 0, 0], &value]))
    }

    /// The entry that these bytes spell; spare bytes are kept as they are.
    pub const fn from_bytes(bytes: [u8; ENTRY]) -> Entry {
        Entry(bytes)
    }

    /// Its bytes.
    pub const fn to_bytes(self) -> [u8; ENTRY] {
        self.0
    }

    /// The count of its stamp.
    pub fn count(self) -> u32 {
        u32_at(&self.0, 0)
    }

    /// The client that wrote it, the second part of its stamp; 0 in the empty entry.
    pub fn writer(self) -> u8 {
        u8_at(&self.0, 4)
    }

    /// What was filed.
    pub fn value(self) -> u32 {
        u32_at(&self.0, 8)
    }

    /// Whether it is the empty entry.
    pub fn is_empty(self) -> bool {
        self.0 == [0; ENTRY]
    }

    pub(crate) fn at(bytes: &[u8], place: usize) -> Entry {
        Entry(part(bytes, place))
    }
}

impl fmt::Display for Entry {
    fn fmt(&self, f: &mut fmt::Formatter<'_>) -> fmt::Result {
        let (count, writer, value) = (self.count(), self.writer(), self.value());
        write!(f, "count={count} writer={writer} value={value}")
    }
}
