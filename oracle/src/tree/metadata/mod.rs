//! Stand-in for the head of the original's metadata; its storage.rs is laid beside it.
mod storage;
pub use storage::Metadata;
#[derive(Debug)]
pub enum Error {
    Corruption(String),
    Runtime(commonware_runtime::Error),
}
impl From<commonware_runtime::Error> for Error {
    fn from(e: commonware_runtime::Error) -> Self {
        Self::Runtime(e)
    }
}
pub struct Config<C> {
    pub partition: String,
    pub codec_config: C,
}
