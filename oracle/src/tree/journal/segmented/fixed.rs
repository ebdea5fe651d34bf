//! Stand-in for the original's rows of one size. It has no pages, and checks none.
use crate::Context;
use crate::journal::Error;
use super::Outcome;
use super::manager as kept;
use commonware_codec::CodecFixedShared;
use commonware_runtime::{Handle, ReadOptions, buffer::paged::CacheRef};
use std::{collections::BTreeMap, marker::PhantomData, num::NonZeroUsize};
pub struct Config {
    pub partition: String,
    pub page_cache: CacheRef,
    pub write_buffer: NonZeroUsize,
}
pub struct Journal<E: Context, I> {
    manager: kept::Manager<E, kept::WriteFactory>,
    rows: PhantomData<fn(I)>,
}
pub struct RecoveryPreflight<E: Context, I> {
    journal: Journal<E, I>,
    boundaries: BTreeMap<u64, Option<I>>,
}
impl<E: Context, I: CodecFixedShared> RecoveryPreflight<E, I> {
    pub fn boundaries(&self) -> &BTreeMap<u64, Option<I>> {
        &self.boundaries
    }
    pub async fn finish(self) -> Outcome<Journal<E, I>> {
        Ok(self.journal)
    }
}
pub struct Replay<E: Context, I> {
    journal: Journal<E, I>,
    sections: Vec<u64>,
    at: (usize, u64),
}
impl<E: Context, I: CodecFixedShared> Replay<E, I> {
    pub async fn next(&mut self) -> Option<Outcome<(u64, u64, I)>> {
        loop {
            let &s = self.sections.get(self.at.0)?;
            let p = self.at.1;
            match self.journal.section_len(s) {
                Ok(n) if p >= n => self.at = (self.at.0 + 1, 0),
                Ok(_) => {
                    self.at.1 += 1;
                    return Some(self.journal.get(s, p).await.map(|i| (s, p, i)));
                }
                Err(e) => return Some(Err(e)),
            }
        }
    }
    pub fn finish(self) -> Outcome<Journal<E, I>> {
        if self.at.0 < self.sections.len() {
            Err(Error::ReplayFailed)
        } else {
            Ok(self.journal)
        }
    }
}
impl<E: Context, I: CodecFixedShared> Journal<E, I> {
    pub const CHUNK_SIZE: usize = I::SIZE;
    pub async fn init_bounded(context: E, cfg: Config, ceiling: u64) -> Outcome<Self> {
        let cfg = kept::Config {
            partition: cfg.partition,
            factory: kept::WriteFactory {
                capacity: cfg.write_buffer,
            },
        };
        Ok(Self {
            manager: kept::Manager::init_bounded(context, cfg, ceiling).await?,
            rows: PhantomData,
        })
    }
    pub async fn preflight_floors(
        context: E,
        cfg: Config,
        floors: &BTreeMap<u64, u64>,
        ceiling: u64,
    ) -> Outcome<RecoveryPreflight<E, I>> {
        let journal = Self::init_bounded(context, cfg, ceiling).await?;
        let mut boundaries = BTreeMap::new();
        for (&s, &n) in floors {
            if journal.section_len(s)? < n {
                return Err(Error::Corruption(format!("section {s} is below its floor")));
            }
            boundaries.insert(
                s,
                if n == 0 {
                    None
                } else {
                    Some(journal.get(s, n - 1).await?)
                },
            );
        }
        Ok(RecoveryPreflight { journal, boundaries })
    }
    pub async fn preflight_restore(_: E, _: Config, _: u64, _: u64) -> Outcome<RecoveryPreflight<E, I>> {
        unimplemented!("the archive goes back to no checkpoint")
    }
    pub async fn recoverable_prefix_len_at_most(&self, _: u64, _: u64, _: NonZeroUsize) -> Outcome<u64> {
        unimplemented!("the archive opens no part of a journal")
    }
    pub async fn replay(
        self,
        section: u64,
        position: u64,
        _: NonZeroUsize,
        _: ReadOptions,
    ) -> Outcome<Replay<E, I>> {
        let sections: Vec<u64> = self.sections().filter(|&s| s >= section).collect();
        let first = if sections.first() == Some(&section) {
            position
        } else {
            0
        };
        Ok(Replay {
            journal: self,
            sections,
            at: (0, first),
        })
    }
    pub fn sections(&self) -> impl Iterator<Item = u64> + '_ {
        self.manager.sections()
    }
    pub fn size(&self, section: u64) -> Outcome<u64> {
        self.manager.size(section)
    }
    pub fn section_len(&self, section: u64) -> Outcome<u64> {
        Ok(self.manager.size(section)? / I::SIZE as u64)
    }
    pub async fn get(&self, start: u64, position: u64) -> Outcome<I> {
        let w = self.manager.get(start)?.ok_or(Error::SectionOutOfRange(start))?;
        if position >= w.size() / I::SIZE as u64 {
            return Err(Error::ItemOutOfRange(position));
        }
        let b = w.read_at(position * I::SIZE as u64, I::SIZE).await?;
        I::decode_cfg(b.as_ref(), &()).map_err(Error::Codec)
    }
    pub async fn last(&self, section: u64) -> Outcome<Option<I>> {
        self.manager.get(section)?.ok_or(Error::SectionOutOfRange(section))?;
        match self.section_len(section)? {
            0 => Ok(None),
            n => self.get(section, n - 1).await.map(Some),
        }
    }
    pub async fn append(mut self, section: u64, item: &I) -> Outcome<(Self, u64)> {
        let w = self.manager.take(section).await?;
        let at = w.size();
        let w = w.write_at(at, item.encode()).await?;
        self.manager.put(section, w);
        Ok((self, at / I::SIZE as u64))
    }
    pub async fn truncate_pending_section(mut self, start: u64, bytes: u64) -> Outcome<Self> {
        self.manager = self.manager.truncate_pending_section(start, bytes).await?;
        Ok(self)
    }
    pub async fn truncate_pending_tail(mut self, start: u64, bytes: u64) -> Outcome<Self> {
        self.manager = self.manager.truncate_pending(start, bytes).await?;
        Ok(self)
    }
    pub async fn sync(mut self, s: impl crate::Sections) -> Outcome<Self> {
        self.manager = self.manager.sync(s).await?;
        Ok(self)
    }
    pub async fn start_sync(mut self, s: impl crate::Sections) -> Outcome<(Self, Handle<()>)> {
        let h;
        (self.manager, h) = self.manager.start_sync(s).await?;
        Ok((self, h))
    }
    pub async fn sync_all(self) -> Outcome<Self> {
        Ok(self)
    }
    pub async fn prune(mut self, min: u64) -> Outcome<(Self, bool)> {
        let went;
        (self.manager, went) = self.manager.prune(min).await?;
        Ok((self, went))
    }
    pub fn pruned(&self, section: u64) -> bool {
        self.manager.pruned(section)
    }
    pub fn oldest_section(&self) -> Option<u64> {
        self.manager.oldest_section()
    }
    pub fn newest_section(&self) -> Option<u64> {
        self.manager.newest_section()
    }
    pub async fn destroy(self) -> Outcome<()> {
        self.manager.destroy().await
    }
}
