//! Stand-in for the head of the original's journal.
use commonware_runtime::Error as RError;
pub mod segmented;
#[derive(Debug)]
pub enum Error {
    Metadata(crate::metadata::Error),
    Runtime(RError),
    Codec(commonware_codec::Error),
    Corruption(String),
    OffsetOverflow,
    ItemOutOfRange(u64),
    SectionOutOfRange(u64),
    AlreadyPrunedToSection(u64),
    ChecksumMismatch(u32, u32),
    ReplayFailed,
    ReplayInterrupted,
    ValueTooLarge,
}
impl From<RError> for Error {
    fn from(e: RError) -> Self {
        Self::Runtime(e)
    }
}
impl From<crate::metadata::Error> for Error {
    fn from(e: crate::metadata::Error) -> Self {
        Self::Metadata(e)
    }
}
pub mod frame {
    //! Nothing is compressed.
    pub fn compress_into(_: u8, _: &[u8], _: &mut Vec<u8>) -> Result<(), super::Error> {
        unimplemented!()
    }
    pub fn decompress(_: &[u8]) -> Result<bytes::Bytes, super::Error> {
        unimplemented!()
    }
}
pub mod durability {
    use futures::FutureExt as _;

    /// How far a section is known to be on disk.
    pub struct Barrier {
        known: u64,
        waiting: Vec<(u64, crate::SyncCompletion)>,
    }

    impl Barrier {
        pub fn new(known: u64) -> Self {
            Self {
                known,
                waiting: Vec::new(),
            }
        }

        pub fn record(&mut self, length: u64, completion: crate::SyncCompletion) {
            self.waiting.push((length, completion));
        }

        pub fn boundary(&mut self) -> u64 {
            let known = &mut self.known;
            self.waiting.retain_mut(|(length, completion)| {
                let done = completion.now_or_never();
                if let Some(Ok(())) = done {
                    *known = (*known).max(*length);
                }
                done.is_none()
            });
            self.known
        }

        pub fn settled(&mut self) -> bool {
            self.boundary();
            self.waiting.is_empty()
        }
    }
}
