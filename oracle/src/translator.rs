//! Stand-in for the original's translators, after docs/RULES.md.

use std::hash::{BuildHasher, Hash, Hasher};

pub trait Translator: Clone + BuildHasher + Send + Sync + 'static {
    type Key: Copy + Ord + Hash + Send + Sync + 'static;
    fn transform(&self, key: &[u8]) -> Self::Key;
}

#[derive(Clone, Copy)]
pub enum AnyTranslator {
    Leading(usize),
    Fnv,
}

impl AnyTranslator {
    pub fn named(name: &str) -> Option<Self> {
        match name {
            "leading1" => Some(Self::Leading(1)),
            "leading2" => Some(Self::Leading(2)),
            "leading4" => Some(Self::Leading(4)),
            "leading8" => Some(Self::Leading(8)),
            "fnv" => Some(Self::Fnv),
            _ => None,
        }
    }
}

/// The hash of a translated key is the translated key.
#[derive(Default)]
pub struct Itself(u64);

impl Hasher for Itself {
    fn finish(&self) -> u64 {
        self.0
    }
    fn write(&mut self, _: &[u8]) {
        unreachable!("translated keys are numbers")
    }
    fn write_u64(&mut self, number: u64) {
        self.0 = number
    }
}

impl BuildHasher for AnyTranslator {
    type Hasher = Itself;
    fn build_hasher(&self) -> Itself {
        Itself::default()
    }
}

impl Translator for AnyTranslator {
    type Key = u64;
    fn transform(&self, key: &[u8]) -> u64 {
        match self {
            Self::Fnv => fnv32(key).into(),
            Self::Leading(count) => {
                (0..*count).fold(0, |sum, i| sum << 8 | u64::from(key.get(i).copied().unwrap_or(0)))
            }
        }
    }
}

fn fnv32(bytes: &[u8]) -> u32 {
    bytes.iter().fold(2_166_136_261, |hash, &byte| {
        (hash ^ u32::from(byte)).wrapping_mul(16_777_619)
    })
}
