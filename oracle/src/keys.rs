//! The two kinds of key, after docs/RULES.md, as the original takes keys.

use commonware_codec::{Buf, BufMut, Error, FixedSize, Read, Write};

pub trait Kind: commonware_utils::Array + 'static {
    /// What a word of the script stands for; none where it is no line of the script's grammar.
    fn bytes_of(word: &str) -> Option<Vec<u8>>;
    /// The first bad place, or the width where the length is wrong.
    fn flaw(bytes: &[u8]) -> Option<usize>;
    /// Bytes without a flaw.
    fn of(bytes: &[u8]) -> Self;
}

macro_rules! kind {
    ($name:ident, $width:literal, $bytes_of:expr, $bad_place:expr) => {
        #[derive(Debug, Clone, PartialEq, Eq, PartialOrd, Ord, Hash)]
        pub struct $name([u8; $width]);
        impl FixedSize for $name {
            const SIZE: usize = $width;
        }
        impl Write for $name {
            fn write(&self, buf: &mut impl BufMut) {
                buf.put_slice(&self.0)
            }
        }
        impl Read for $name {
            type Cfg = ();
            fn read_cfg(buf: &mut impl Buf, _: &()) -> Result<Self, Error> {
                if buf.remaining() < $width {
                    return Err(Error::EndOfBuffer);
                }
                let mut bytes = [0; $width];
                buf.copy_to_slice(&mut bytes);
                match Self::flaw(&bytes) {
                    None => Ok(Self(bytes)),
                    Some(_) => Err(Error::Invalid(stringify!($name), "not a key")),
                }
            }
        }
        impl AsRef<[u8]> for $name {
            fn as_ref(&self) -> &[u8] {
                &self.0
            }
        }
        impl Kind for $name {
            fn bytes_of(word: &str) -> Option<Vec<u8>> {
                $bytes_of(word)
            }
            fn flaw(bytes: &[u8]) -> Option<usize> {
                match <&[u8; $width]>::try_from(bytes) {
                    Ok(bytes) => $bad_place(bytes),
                    Err(_) => Some($width),
                }
            }
            fn of(bytes: &[u8]) -> Self {
                Self(bytes.try_into().expect("the kind's width"))
            }
        }
    };
}

kind!(Digest, 32, from_hex, |_: &[u8; 32]| None);
kind!(BoxNumber, 11, |word: &str| Some(word.as_bytes().to_vec()), bad_place);

pub fn from_hex(word: &str) -> Option<Vec<u8>> {
    let digits: Option<Vec<u8>> = word.chars().map(|c| c.to_digit(16).map(|digit| digit as u8)).collect();
    let digits = digits.filter(|digits| digits.len() % 2 == 0)?;
    Some(digits.chunks(2).map(|pair| pair[0] << 4 | pair[1]).collect())
}

fn count(byte: u8) -> u32 {
    if byte.is_ascii_digit() {
        return u32::from(byte - b'0');
    }
    let place = usize::from(byte - b'A');
    (10..)
        .filter(|number| number % 11 != 0)
        .nth(place)
        .expect("letters end")
}

fn bad_place(bytes: &[u8; 11]) -> Option<usize> {
    let right = |place: usize| match place {
        0..3 => bytes[place].is_ascii_uppercase(),
        3 => bytes[place] == b'U',
        _ => bytes[place].is_ascii_digit(),
    };
    if let Some(bad) = (0..10).find(|&place| !right(place)) {
        return Some(bad);
    }
    let sum: u32 = (0..10).map(|place| count(bytes[place]) << place).sum();
    let digit = b'0' + (sum % 11 % 10) as u8;
    (bytes[10] != digit).then_some(10)
}
