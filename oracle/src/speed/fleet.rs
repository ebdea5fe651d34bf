//! The moves that are stored, and the boxes that are asked for.

use crate::keys::{BoxNumber, Kind};

pub const SECTIONS: u64 = 16;

/// Move numbers to a section; each has two records.
pub const SIZE: u64 = 64;

pub const NUMBERS: u64 = SECTIONS * SIZE;

/// How many questions of a kind are asked in a row.
pub const ASKED: usize = 100_000;

pub struct Move {
    pub number: u64,
    pub key: [u8; 11],
    pub value: [u8; 16],
}

pub struct Fleet {
    /// A move of each number, and behind these a further one of each; every box has one move.
    pub moves: Vec<Move>,
    /// As many boxes of the same owners that have none.
    pub absent: Vec<[u8; 11]>,
    /// The boxes of the moves with a wrong check digit.
    pub wrong: Vec<[u8; 11]>,
}

/// A box of one of 64 owners, with its check digit.
fn box_at(n: u64) -> [u8; 11] {
    let owner = n % 64;
    let letter = |n: u64| b'A' + (n % 26) as u8;
    let text = format!(
        "{}{}{}U{:06}0",
        letter(owner / 26) as char,
        letter(owner) as char,
        letter(owner * 7) as char,
        100_000 + n * 211
    );
    let mut bytes: [u8; 11] = text.into_bytes().try_into().expect("eleven bytes");
    while BoxNumber::flaw(&bytes).is_some() {
        bytes[10] += 1;
    }
    bytes
}

impl Fleet {
    pub fn new() -> Self {
        let all = 2 * NUMBERS;
        let moves = (0..all).map(|n| {
            let (number, key) = (n % NUMBERS, box_at(n));
            let mut value = [0; 16];
            value[..11].copy_from_slice(&key);
            value[11..].copy_from_slice(&n.to_be_bytes()[3..]);
            Move { number, key, value }
        });
        let wrong = |m: &Move| {
            let mut key = m.key;
            key[10] = b'0' + (key[10] - b'0' + 1) % 10;
            key
        };
        let moves: Vec<Move> = moves.collect();
        Self {
            wrong: moves.iter().map(wrong).collect(),
            moves,
            absent: (all..2 * all).map(box_at).collect(),
        }
    }

    /// The move that the question at a place of the run is about.
    pub fn asked(&self, at: usize) -> &Move {
        &self.moves[at * 389 % self.moves.len()]
    }

    pub fn wrong(&self, at: usize) -> &[u8; 11] {
        &self.wrong[at * 389 % self.wrong.len()]
    }

    pub fn absent(&self, at: usize) -> &[u8; 11] {
        &self.absent[at * 389 % self.absent.len()]
    }
}
