//! Stand-in for commonware_utils: what a key is, the table of handles, and small helpers.
use commonware_codec::{CodecFixedShared, FixedSize, Read, Write};
use std::{fmt::Debug, hash::Hash};

pub trait Span: Clone + Ord + Hash + Debug + Write + FixedSize + Read<Cfg = ()> + CodecFixedShared {}
impl<T: Clone + Ord + Hash + Debug + CodecFixedShared> Span for T {}
/// Keys of one length.
pub trait Array: Span + AsRef<[u8]> {}
impl<T: Span + AsRef<[u8]>> Array for T {}

pub mod handles {
    //! Handles by hash: one flat row of slots, each with a handle and half of its hash. The next slot is tried where
    //! one is taken, and a removal closes the gap behind it. In which order the handles of a hash come is this
    //! table's own affair, and no evidence about the original's.

    use std::marker::PhantomData;

    #[derive(Clone, Copy, PartialEq, Eq)]
    struct Slot {
        handle: u64,
        half: u32,
    }

    // No handle has all its bits set, as no section has so many records.
    const FREE: Slot = Slot {
        handle: u64::MAX,
        half: 0,
    };

    pub struct Table<H> {
        slots: Vec<Slot>,
        len: usize,
        kind: PhantomData<H>,
    }

    /// Half of a hash. Hashes may be small numbers, so they are mixed first. A handle belongs into the slot that the
    /// low bits of the half name.
    fn half(hash: u64) -> u32 {
        ((hash ^ (hash >> 32)).wrapping_mul(0x9E37_79B9_7F4A_7C15) >> 32) as u32
    }

    impl Table<u64> {
        pub fn with_capacity(handles: usize) -> Self {
            let slots = match handles {
                0 => 0,
                _ => (handles * 4 / 3 + 1).next_power_of_two(),
            };
            Self {
                slots: vec![FREE; slots],
                len: 0,
                kind: PhantomData,
            }
        }

        pub const fn len(&self) -> usize {
            self.len
        }

        pub const fn is_empty(&self) -> bool {
            self.len == 0
        }

        /// The slots from the one of a half on, around, up to the first that is free.
        fn chain(&self, half: u32) -> impl Iterator<Item = usize> + '_ {
            let count = self.slots.len();
            let around = (0..count).map(move |step| (half as usize + step) & (count - 1));
            around.take_while(|&at| self.slots[at] != FREE)
        }

        fn place(&mut self, slot: Slot) {
            let mask = self.slots.len() - 1;
            let mut at = slot.half as usize & mask;
            while self.slots[at] != FREE {
                at = (at + 1) & mask;
            }
            self.slots[at] = slot;
        }

        pub fn insert(&mut self, hash: u64, handle: u64, mut rehash: impl FnMut(u64) -> u64) {
            assert!(handle != FREE.handle);
            if (self.len + 1) * 4 > self.slots.len() * 3 {
                let more = vec![FREE; (self.slots.len() * 2).max(4)];
                for slot in std::mem::replace(&mut self.slots, more) {
                    if slot != FREE {
                        // The original is asked anew, so that a hash which it tells otherwise comes to light.
                        assert_eq!(half(rehash(slot.handle)), slot.half, "a handle keeps its hash");
                        self.place(slot);
                    }
                }
            }
            let half = half(hash);
            self.place(Slot { handle, half });
            self.len += 1;
        }

        /// Handles that may have been stored under the hash, in the order of their slots.
        pub fn get(&self, hash: u64) -> impl Iterator<Item = u64> + '_ {
            let half = half(hash);
            let stored = self.chain(half).map(|at| self.slots[at]);
            stored.filter(move |slot| slot.half == half).map(|slot| slot.handle)
        }

        pub fn remove(&mut self, hash: u64, handle: u64) -> bool {
            let half = half(hash);
            let wanted = Slot { handle, half };
            let Some(mut gap) = self.chain(half).find(|&at| self.slots[at] == wanted) else {
                return false;
            };
            let mask = self.slots.len() - 1;
            let mut at = (gap + 1) & mask;
            while self.slots[at] != FREE {
                let home = self.slots[at].half as usize & mask;
                // It may move into the gap if that is no further from its home than where it is.
                if (at.wrapping_sub(home) & mask) >= (at.wrapping_sub(gap) & mask) {
                    self.slots[gap] = self.slots[at];
                    gap = at;
                }
                at = (at + 1) & mask;
            }
            self.slots[gap] = FREE;
            self.len -= 1;
            true
        }
    }
}

pub trait Widen<T> {
    fn widen(self) -> T;
}
impl Widen<u64> for usize {
    fn widen(self) -> u64 {
        self as u64
    }
}
impl Widen<usize> for u32 {
    fn widen(self) -> usize {
        self as usize
    }
}
pub mod futures {
    pub async fn try_join_all<T, E, F: Future<Output = Result<T, E>>>(
        it: impl IntoIterator<Item = F>,
    ) -> Result<Vec<T>, E> {
        let fs: Vec<F> = it.into_iter().collect();
        let mut out = Vec::new();
        for f in fs {
            out.push(f.await?);
        }
        Ok(out)
    }
}
pub mod sequence {
    use commonware_codec::{Buf, BufMut, Error, FixedSize, Read, Write};
    #[derive(Debug, Clone, PartialEq, Eq, PartialOrd, Ord, Hash)]
    pub struct U64(u64);
    impl U64 {
        pub const fn new(n: u64) -> Self {
            Self(n)
        }
    }
    impl From<&U64> for u64 {
        fn from(n: &U64) -> u64 {
            n.0
        }
    }
    impl FixedSize for U64 {
        const SIZE: usize = 8;
    }
    impl Write for U64 {
        fn write(&self, buf: &mut impl BufMut) {
            self.0.write(buf)
        }
    }
    impl Read for U64 {
        type Cfg = ();
        fn read_cfg(buf: &mut impl Buf, _: &()) -> Result<Self, Error> {
            u64::read_cfg(buf, &()).map(Self)
        }
    }
}
