//! What a search gives.
use crate::ffi;
use std::fmt;

/// What an entry of a search says.
#[derive(Clone, Copy, Debug, PartialEq, Eq, Hash)]
pub enum EntryKind {
    /// A meter that was found and read; the digits are its id.
    One,
    /// A meter that answers a mask, but whose reading fails; the digits are the mask.
    Mute,
    /// An id that several meters have; the digits are the id.
    Many,
}

impl fmt::Display for EntryKind {
    /// `one`, `mute` or `many`.
    fn fmt(&self, f: &mut fmt::Formatter<'_>) -> fmt::Result {
        f.pad(match self {
            EntryKind::One => "one",
            EntryKind::Mute => "mute",
            EntryKind::Many => "many",
        })
    }
}

/// An entry that a search gives.
#[derive(Clone, Copy, Debug, PartialEq, Eq, Hash)]
pub struct Entry {
    /// What the entry says.
    pub kind: EntryKind,
    /// The eight digits of the id or the mask, most significant first; 15 is an unknown digit.
    pub digits: [u8; 8],
    /// How many meters acknowledged.
    pub count: u32,
}

impl Entry {
    pub(crate) fn read(row: &[u8; ffi::ENTRY]) -> Self {
        let [kind, d0, d1, d2, d3, d4, d5, d6, d7, n0, n1, n2, n3, ..] = *row;
        let kind = match kind {
            1 => EntryKind::One,
            2 => EntryKind::Mute,
            _ => EntryKind::Many,
        };
        Entry { kind, digits: [d0, d1, d2, d3, d4, d5, d6, d7], count: u32::from_le_bytes([n0, n1, n2, n3]) }
    }
}

impl Default for Entry {
    /// A place to lend: a mute with no digit known that nobody acknowledged, which no search gives.
    fn default() -> Self {
        Entry { kind: EntryKind::Mute, digits: [15; 8], count: 0 }
    }
}

impl fmt::Display for Entry {
    /// The eight digits, F for an unknown one.
    fn fmt(&self, f: &mut fmt::Formatter<'_>) -> fmt::Result {
        let digit = |d: &u8| char::from_digit(u32::from(*d), 16).map_or('?', |c| c.to_ascii_uppercase());
        f.pad(&self.digits.iter().map(digit).collect::<String>())
    }
}

/// What a search found.
#[derive(Clone, Debug, PartialEq, Eq, Hash)]
pub struct Found {
    /// The entries, in the order of their digits.
    pub entries: Vec<Entry>,
    /// How many probes were made.
    pub probes: u32,
    /// Whether the search stopped because its allowance was spent; there may then be more to find.
    pub spent: bool,
}

/// What a search into lent entries did.
#[derive(Clone, Copy, Debug, PartialEq, Eq, Hash)]
pub struct Summary {
    /// How many entries were written.
    pub entries: usize,
    /// How many probes were made.
    pub probes: u32,
    /// Whether the search stopped because its allowance was spent; there may then be more to find.
    pub spent: bool,
}
