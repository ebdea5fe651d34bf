//! What is timed.

use super::fleet::{ASKED, Fleet, NUMBERS, SECTIONS};

#[derive(Clone, Copy, PartialEq, Eq)]
pub enum Work {
    /// A move of each number, and then a further one, into an empty archive.
    Put,
    GetNumber,
    GetNoNumber,
    GetKey,
    GetNoKey,
    HasNumber,
    HasKey,
    HasBoth,
    ListNumber,
    /// Bytes that are no key are read, and refused. With the library this is a part of each call by key, since its exports take
    /// bytes; the original takes keys that were made before, and the kind of key is a stand-in.
    ReadKey,
    /// Section by section, until nothing is kept.
    Prune,
    /// Of all records, with the reading of what lies on the pages or on disk.
    Load,
}

/// What both sides have to answer alike: how many calls found something, and a sum over what was found.
#[derive(Clone, Copy, Default, Debug, PartialEq, Eq)]
pub struct Seen {
    pub found: u64,
    pub sum: u64,
}

impl Seen {
    pub fn one(&mut self, of: u64) {
        self.found += 1;
        self.sum = self.sum.wrapping_mul(31).wrapping_add(of);
    }

    pub fn value(&mut self, value: &[u8]) {
        self.one(
            value
                .iter()
                .fold(value.len() as u64, |sum, &byte| sum * 7 + u64::from(byte)),
        );
    }
}

impl Work {
    pub const ALL: [Work; 12] = [
        Work::Put,
        Work::GetNumber,
        Work::GetNoNumber,
        Work::GetKey,
        Work::GetNoKey,
        Work::HasNumber,
        Work::HasKey,
        Work::HasBoth,
        Work::ListNumber,
        Work::ReadKey,
        Work::Prune,
        Work::Load,
    ];

    pub fn name(self) -> &'static str {
        match self {
            Work::Put => "put",
            Work::GetNumber => "get by number",
            Work::GetNoNumber => "get by an absent number",
            Work::GetKey => "get by key",
            Work::GetNoKey => "get by an absent key",
            Work::HasNumber => "has a number",
            Work::HasKey => "has a key",
            Work::HasBoth => "has both in one record",
            Work::ListNumber => "list by number",
            Work::ReadKey => "key that is none",
            Work::Prune => "prune of a section",
            Work::Load => "load of all records",
        }
    }

    pub fn calls(self, fleet: &Fleet) -> usize {
        match self {
            Work::Put => fleet.moves.len(),
            Work::Prune => SECTIONS as usize,
            Work::Load => 1,
            _ => ASKED,
        }
    }

    /// The number that the question at a place of the run is about.
    pub fn number(self, at: usize) -> u64 {
        let number = at as u64 * 389 % NUMBERS;
        if self == Work::GetNoNumber {
            number + NUMBERS
        } else {
            number
        }
    }
}
