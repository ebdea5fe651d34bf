//! Lines of the script, and what their answers are made of.

use crate::translator::AnyTranslator;
use std::fmt::Write;

#[derive(Clone, Copy)]
pub struct Limits {
    pub slots: u64,
    pub rows: u64,
    pub bytes: u64,
}

impl Limits {
    pub fn suit_a_journal(&self) -> bool {
        (1..=64).contains(&self.slots) && (1..=1_024).contains(&self.rows) && (4..=65_536).contains(&self.bytes)
    }

    pub fn suit_an_archive(&self) -> bool {
        (1..=16).contains(&self.slots) && (1..=128).contains(&self.rows) && (4..=4_096).contains(&self.bytes)
    }
}

/// What a voyage begins with.
#[derive(Clone, Copy)]
pub struct Start {
    pub boxes: bool,
    pub translator: AnyTranslator,
    pub limits: Limits,
    /// A voyage in memory has no bytes to save.
    pub on_pages: bool,
    /// Without the refusals that the original does not know.
    pub bare: bool,
}

/// Marks an answer that the driver works out, since the original has no such call or no such refusal.
pub fn ours(answer: impl Into<String>) -> String {
    format!("~ {}", answer.into())
}

/// An answer that is not to be compared.
pub fn open(why: &str) -> String {
    format!("- {why}")
}

/// A refusal; a part that the original does not tell is a star.
pub fn refused(number: u32, layer: u32, parts: [Option<u64>; 3], words: &str) -> String {
    let [section, position, amount] = parts.map(|part| part.map_or("*".to_string(), |part| part.to_string()));
    format!("refused {number} layer {layer} section {section} position {position} amount {amount}: {words}")
}

/// A refusal of the driver's own, with all parts.
pub fn refused_by_us(number: u32, layer: u32, parts: [u64; 3], words: &str) -> String {
    ours(refused(number, layer, parts.map(Some), words))
}

/// A value as the script shows it.
pub fn shown(value: &[u8]) -> String {
    let mut text = format!("length {}:", value.len());
    if !value.is_empty() {
        text.push(' ');
    }
    for &byte in value {
        match byte {
            b' '..=b'~' if byte != b'\\' => text.push(byte.into()),
            _ => write!(text, "\\x{byte:02x}").unwrap(),
        }
    }
    text
}

pub fn number_or_none(number: Option<u64>) -> String {
    number.map_or("none".into(), |number| number.to_string())
}

/// A number as the script writes it.
pub fn number(word: &str) -> Option<u64> {
    let digits = word.bytes().all(|byte| byte.is_ascii_digit());
    word.parse().ok().filter(|_| digits)
}
