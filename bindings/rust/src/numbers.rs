//! Sets of servers and of keys, and numbers in bytes.

use std::fmt;

/// A set of numbers from 1 to 32, kept as bits: the members of a view, or the
/// views whose keys a server holds.
///
/// ```
/// use zemawulo::Numbers;
///
/// let members: Numbers = [1, 2, 3, 4].into_iter().collect();
/// assert_eq!(members.bits(), 0b1111);
/// assert_eq!(members.len(), 4);
/// assert!(members.contains(4) && !members.contains(5));
/// assert_eq!(members.to_string(), "1,2,3,4");
/// assert_eq!(Numbers::default().to_string(), "none");
/// ```
#[derive(Clone, Copy, Debug, Default, PartialEq, Eq, Hash)]
pub struct Numbers(u32);

impl Numbers {
    /// The set of these bits; bit s-1 is the number s.
    pub const fn from_bits(bits: u32) -> Numbers {
        Numbers(bits)
    }

    /// Its bits.
    pub const fn bits(self) -> u32 {
        self.0
    }

    /// Whether it has this number.
    pub fn contains(self, number: u8) -> bool {
        self.0 & bit(number) != 0
    }

    /// The set with this number too; one outside 1 to 32 adds nothing.
    #[must_use]
    pub fn with(self, number: u8) -> Numbers {
        Numbers(self.0 | bit(number))
    }

    /// How many numbers it has.
    pub fn len(self) -> u32 {
        self.0.count_ones()
    }

    /// Whether it has none.
    pub fn is_empty(self) -> bool {
        self.0 == 0
    }

    /// Its numbers, from the smallest.
    pub fn iter(self) -> impl Iterator<Item = u8> {
        (1..=32).filter(move |&number| self.contains(number))
    }
}

fn bit(number: u8) -> u32 {
    match number {
        1..=32 => 1 << (number - 1),
        _ => 0,
    }
}

impl FromIterator<u8> for Numbers {
    fn from_iter<I: IntoIterator<Item = u8>>(numbers: I) -> Numbers {
        numbers.into_iter().fold(Numbers(0), Numbers::with)
    }
}

impl fmt::Display for Numbers {
    fn fmt(&self, f: &mut fmt::Formatter<'_>) -> fmt::Result {
        if self.is_empty() {
            return f.write_str("none");
        }
        let words: Vec<String> = self.iter().map(|number| number.to_string()).collect();
        f.write_str(&words.join(","))
    }
}

/// N bytes of a record from a place on; zero where it has none.
pub(crate) fn part<const N: usize>(bytes: &[u8], at: usize) -> [u8; N] {
    let found = bytes.get(at..at.saturating_add(N));
    found
        .and_then(|part| part.try_into().ok())
        .unwrap_or([0; N])
}

pub(crate) fn u8_at(bytes: &[u8], at: usize) -> u8 {
    u8::from_le_bytes(part(bytes, at))
}

pub(crate) fn u16_at(bytes: &[u8], at: usize) -> u16 {
    u16::from_le_bytes(part(bytes, at))
}

pub(crate) fn u32_at(bytes: &[u8], at: usize) -> u32 {
    u32::from_le_bytes(part(bytes, at))
}

/// Parts one after another as one record; what goes beyond it is left out.
pub(crate) fn record<const N: usize>(parts: &[&[u8]]) -> [u8; N] {
    let mut bytes = [0; N];
    let all = parts.iter().flat_map(|part| part.iter());
    for (place, byte) in bytes.iter_mut().zip(all) {
        *place = *byte;
    }
    bytes
}
