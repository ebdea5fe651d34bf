//! Stand-in for the original's keeper of blobs: one for each section, and a floor that is 0 at the beginning.
use super::Outcome;
use crate::{Context, journal::Error};
use commonware_runtime::{Blob as _, Error as RError, Handle, IoBuf, ReadOptions, WriteOptions};
use std::{collections::BTreeMap, num::NonZeroUsize};
pub struct WriteFactory {
    pub capacity: NonZeroUsize,
}
pub struct Config<F> {
    pub partition: String,
    pub factory: F,
}
/// A blob and its length; every write goes to the blob at once.
pub struct Writer<B> {
    blob: B,
    size: u64,
}
impl<B: commonware_runtime::Blob> Writer<B> {
    pub fn size(&self) -> u64 {
        self.size
    }
    /// There is no buffer to write to.
    pub fn try_write_at(&mut self, _: u64, _: &[u8]) -> bool {
        false
    }
    pub async fn write_at(mut self, offset: u64, data: impl Into<IoBuf>) -> Result<Self, RError> {
        let data: IoBuf = data.into();
        let end = offset + data.len() as u64;
        self.blob.write_at(offset, data, WriteOptions::default()).await?;
        self.size = self.size.max(end);
        Ok(self)
    }
    pub async fn read_at(&self, offset: u64, len: usize) -> Result<IoBuf, RError> {
        Ok(self.blob.read_at(offset, len, ReadOptions).await?.freeze())
    }
}
pub struct Manager<E: Context, F> {
    context: E,
    partition: String,
    blobs: BTreeMap<u64, Writer<E::Blob>>,
    floor: u64,
    factory: F,
}
impl<E: Context, F: Send + Sync> Manager<E, F> {
    pub async fn init_bounded(context: E, cfg: Config<F>, ceiling: u64) -> Outcome<Self> {
        let mut blobs = BTreeMap::new();
        for name in context.scan(&cfg.partition).await? {
            let section = u64::from_be_bytes(name[..].try_into().unwrap());
            if section <= ceiling {
                let (blob, size) = context.open(&cfg.partition, &name).await?;
                blobs.insert(section, Writer { blob, size });
            }
        }
        Ok(Self {
            context,
            partition: cfg.partition,
            blobs,
            floor: 0,
            factory: cfg.factory,
        })
    }
    fn guard(&self, section: u64) -> Outcome<()> {
        if section < self.floor {
            Err(Error::AlreadyPrunedToSection(self.floor))
        } else {
            Ok(())
        }
    }
    pub fn get(&self, section: u64) -> Outcome<Option<&Writer<E::Blob>>> {
        self.guard(section)?;
        Ok(self.blobs.get(&section))
    }
    pub async fn get_or_create(&mut self, section: u64) -> Outcome<&mut Writer<E::Blob>> {
        self.guard(section)?;
        if !self.blobs.contains_key(&section) {
            let (blob, size) = self.context.open(&self.partition, &section.to_be_bytes()).await?;
            self.blobs.insert(section, Writer { blob, size });
        }
        Ok(self.blobs.get_mut(&section).unwrap())
    }
    pub async fn take(&mut self, section: u64) -> Outcome<Writer<E::Blob>> {
        self.get_or_create(section).await?;
        Ok(self.blobs.remove(&section).unwrap())
    }
    pub fn put(&mut self, section: u64, w: Writer<E::Blob>) {
        self.blobs.insert(section, w);
    }
    pub fn size(&self, section: u64) -> Outcome<u64> {
        Ok(self.get(section)?.map_or(0, |w| w.size))
    }
    pub async fn sync(self, _: impl crate::Sections) -> Outcome<Self> {
        Ok(self)
    }
    pub async fn start_sync(self, _: impl crate::Sections) -> Outcome<(Self, Handle<()>)> {
        Ok((self, Handle::ready(Ok(()))))
    }
    pub async fn sync_all(self) -> Outcome<Self> {
        Ok(self)
    }
    pub async fn truncate_pending_section(mut self, start: u64, bytes: u64) -> Outcome<Self> {
        if let Some(w) = self.blobs.get_mut(&start).filter(|w| w.size > bytes) {
            w.blob.resize(bytes).await?;
            w.size = bytes;
        }
        Ok(self)
    }
    pub async fn truncate_pending_sections(mut self, sizes: &BTreeMap<u64, u64>) -> Outcome<Self> {
        for (&s, &n) in sizes {
            self = self.truncate_pending_section(s, n).await?;
        }
        Ok(self)
    }
    pub async fn truncate_pending(mut self, start: u64, bytes: u64) -> Outcome<Self> {
        let later: Vec<u64> = self.sections().filter(|&s| s > start).collect();
        for s in later {
            self = self.remove_section(s).await?.0;
        }
        self.truncate_pending_section(start, bytes).await
    }
    pub async fn remove_section(mut self, section: u64) -> Outcome<(Self, bool)> {
        let had = self.blobs.remove(&section).is_some();
        if had {
            self.context
                .remove(&self.partition, Some(&section.to_be_bytes()))
                .await?;
        }
        Ok((self, had))
    }
    pub async fn prune(mut self, min: u64) -> Outcome<(Self, bool)> {
        let gone: Vec<u64> = self.sections().filter(|&s| s < min).collect();
        for &s in &gone {
            self = self.remove_section(s).await?.0;
        }
        self.floor = self.floor.max(min);
        Ok((self, !gone.is_empty()))
    }
    pub const fn pruned(&self, section: u64) -> bool {
        section < self.floor
    }
    pub fn oldest_section(&self) -> Option<u64> {
        self.blobs.keys().next().copied()
    }
    pub fn newest_section(&self) -> Option<u64> {
        self.blobs.keys().next_back().copied()
    }
    pub fn sections(&self) -> impl Iterator<Item = u64> + '_ {
        self.blobs.keys().copied()
    }
    pub async fn destroy(self) -> Outcome<()> {
        Ok(self.context.remove(&self.partition, None).await?)
    }
}
pub async fn truncate_paged_tail<E: Context>(_: &E, _: &str, _: u64, _: u64, _: u64) -> Outcome<()> {
    unimplemented!("the archive opens no part of a journal")
}
