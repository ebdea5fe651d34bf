//! What the original finds at the top of its own crate, and the disk under it.

use crate::archive::prunable::Config;
use crate::translator::AnyTranslator;
use commonware_runtime::memory::{Mem, MemBlob};
use commonware_runtime::{Error, Metrics, Storage};
use std::num::{NonZeroU64, NonZeroUsize};

pub trait Context: Storage + Metrics {}

#[derive(Clone, Default)]
pub struct Disk(pub Mem);

impl Metrics for Disk {
    fn child(&self, _: &str) -> Self {
        self.clone()
    }
}

impl Storage for Disk {
    type Blob = MemBlob;
    async fn open(&self, partition: &str, name: &[u8]) -> Result<(MemBlob, u64), Error> {
        self.0.open(partition, name).await
    }
    async fn remove(&self, partition: &str, name: Option<&[u8]>) -> Result<(), Error> {
        self.0.remove(partition, name).await
    }
    async fn scan(&self, partition: &str) -> Result<Vec<Vec<u8>>, Error> {
        self.0.scan(partition).await
    }
}

impl Context for Disk {}

pub const KEYS: &str = "keys";
pub const VALUES: &str = "values";
pub const MARKERS: &str = "markers";

/// How the original is set up, with so many numbers to a section.
pub fn configured(translator: AnyTranslator, size: u64) -> Config<AnyTranslator, ()> {
    let buffer = NonZeroUsize::new(4_096).unwrap();
    Config {
        translator,
        metadata_partition: MARKERS.into(),
        key_partition: KEYS.into(),
        key_page_cache: Default::default(),
        value_partition: VALUES.into(),
        compression: None,
        codec_config: (),
        items_per_section: NonZeroU64::new(size).expect("the type has no 0"),
        key_write_buffer: buffer,
        value_write_buffer: buffer,
        replay_buffer: buffer,
    }
}

/// What a row of the original holds beside its key: number, offset and size.
const ROW_WITHOUT_KEY: usize = 20;

impl Disk {
    fn blob(&self, partition: &str, start: u64) -> MemBlob {
        crate::run(self.open(partition, &start.to_be_bytes()))
            .expect("a blob in memory opens")
            .0
    }

    /// The bytes as they are now, so that what comes later does not change them.
    pub fn copy(&self) -> Self {
        Self(self.0.copy())
    }

    /// The starts of the sections that have rows.
    pub fn sections(&self) -> Vec<u64> {
        let names = crate::run(self.scan(KEYS)).expect("a scan in memory goes well");
        let starts = names
            .iter()
            .map(|name| u64::from_be_bytes(name[..].try_into().unwrap()));
        starts.filter(|&start| self.blob(KEYS, start).len() > 0).collect()
    }

    /// Writes a row as the original lays rows, behind its back. Returns the row's position.
    pub fn append(&self, start: u64, number: u64, key: &[u8], value: &[u8]) -> usize {
        let values = self.blob(VALUES, start);
        let check = commonware_cryptography::Crc32::checksum(value);
        let offset = values.len() as u64;
        values.extend(&[value, &check.to_be_bytes()].concat());
        let keys = self.blob(KEYS, start);
        let position = keys.len() / (ROW_WITHOUT_KEY + key.len());
        let size = value.len() as u32 + 4;
        keys.extend(&[&number.to_be_bytes(), key, &offset.to_be_bytes(), &size.to_be_bytes()].concat());
        position
    }

    /// The bytes of a row, and where they begin.
    fn row(&self, start: u64, position: usize, width: usize) -> Option<(usize, Vec<u8>)> {
        self.sections().contains(&start).then_some(())?;
        let length = ROW_WITHOUT_KEY + width;
        let rows = self.blob(KEYS, start).bytes();
        rows.chunks_exact(length)
            .nth(position)
            .map(|row| (position * length, row.to_vec()))
    }

    /// Turns one bit of the check of a value; a second time turns it back.
    pub fn damage(&self, start: u64, position: usize, width: usize) -> Option<()> {
        let (_, row) = self.row(start, position, width)?;
        let offset = u64::from_be_bytes(row[8 + width..16 + width].try_into().unwrap());
        let size = u32::from_be_bytes(row[16 + width..].try_into().unwrap());
        self.blob(VALUES, start).turn(offset as usize + size as usize - 1);
        Some(())
    }

    /// Turns one bit of a key, in its last byte.
    pub fn alter_key(&self, start: u64, position: usize, width: usize) -> Option<()> {
        let (at, _) = self.row(start, position, width)?;
        self.blob(KEYS, start).turn(at + 8 + width - 1);
        Some(())
    }
}

pub type SyncCompletion =
    futures::future::Shared<futures::future::BoxFuture<'static, Result<(), commonware_runtime::Error>>>;

/// Sections to sync, in the forms in which the original hands them over.
pub trait Sections: Send {
    fn sections(&self) -> std::vec::IntoIter<u64>;
}

impl Sections for u64 {
    fn sections(&self) -> std::vec::IntoIter<u64> {
        vec![*self].into_iter()
    }
}

impl Sections for &Vec<u64> {
    fn sections(&self) -> std::vec::IntoIter<u64> {
        self.to_vec().into_iter()
    }
}

impl Sections for std::collections::BTreeSet<u64> {
    fn sections(&self) -> std::vec::IntoIter<u64> {
        self.iter().copied().collect::<Vec<_>>().into_iter()
    }
}

impl Sections for &std::collections::BTreeSet<u64> {
    fn sections(&self) -> std::vec::IntoIter<u64> {
        self.iter().copied().collect::<Vec<_>>().into_iter()
    }
}
