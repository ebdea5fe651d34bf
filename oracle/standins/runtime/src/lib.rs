//! Stand-in for commonware_runtime: blobs in memory, and what hangs on them. Nothing waits, and nothing is lost.
pub use commonware_codec::{Buf, BufMut};
use std::{
    future::Future,
    pin::Pin,
    task::{Context as Cx, Poll},
};

#[derive(Debug, Clone, PartialEq, Eq)]
pub enum Error {
    BlobInsufficientLength,
    OffsetOverflow,
    InvalidChecksum,
    PartitionMissing(String),
    BlobMissing(String),
    WriteFailed,
}
/// Work that was begun.
pub struct Handle<T>(Pin<Box<dyn Future<Output = Result<T, Error>> + Send>>);
impl<T: Send + 'static> Handle<T> {
    pub fn ready(r: Result<T, Error>) -> Self {
        Self(Box::pin(std::future::ready(r)))
    }
    pub fn from_future(f: impl Future<Output = Result<T, Error>> + Send + 'static) -> Self {
        Self(Box::pin(f))
    }
}
impl<T> Future for Handle<T> {
    type Output = Result<T, Error>;
    fn poll(mut self: Pin<&mut Self>, cx: &mut Cx<'_>) -> Poll<Self::Output> {
        self.0.as_mut().poll(cx)
    }
}
#[derive(Clone, Copy, Default)]
pub struct ReadOptions;
/// What parts are named by.
pub trait Metrics: Send + Sync + 'static {
    fn child(&self, name: &str) -> Self;
}
pub mod buffer {
    pub mod paged {
        /// There is no cache of pages.
        #[derive(Clone, Default)]
        pub struct CacheRef;
        impl CacheRef {
            pub fn page_size(&self) -> u64 {
                4096
            }
        }
    }
}
pub mod telemetry {
    pub mod metrics {
        use std::sync::atomic::{AtomicU64, Ordering::Relaxed};
        #[derive(Default)]
        pub struct Counter(AtomicU64);
        impl Counter {
            pub fn inc(&self) {
                self.inc_by(1);
            }
            pub fn inc_by(&self, n: u64) {
                self.0.fetch_add(n, Relaxed);
            }
            pub fn get(&self) -> u64 {
                self.0.load(Relaxed)
            }
        }
        #[derive(Default)]
        pub struct Gauge(AtomicU64);
        impl Gauge {
            pub fn set(&self, n: i64) {
                self.0.store(n as u64, Relaxed);
            }
            pub fn get(&self) -> u64 {
                self.0.load(Relaxed)
            }
        }
        pub trait GaugeExt {
            fn try_set<N: TryInto<i64>>(&self, n: N) -> Result<(), N::Error>;
        }
        impl GaugeExt for Gauge {
            fn try_set<N: TryInto<i64>>(&self, n: N) -> Result<(), N::Error> {
                n.try_into().map(|n| self.set(n))
            }
        }
        pub trait MetricsExt {
            fn gauge(&self, _name: &str, _help: &str) -> Gauge {
                Gauge::default()
            }
            fn counter(&self, _name: &str, _help: &str) -> Counter {
                Counter::default()
            }
        }
        impl<T: super::super::Metrics> MetricsExt for T {}
    }
}

/// Shared bytes, and the part of them that is meant.
#[derive(Clone, Default, Debug)]
pub struct IoBuf {
    bytes: std::sync::Arc<Vec<u8>>,
    from: usize,
    to: usize,
}
impl IoBuf {
    pub fn len(&self) -> usize {
        self.to - self.from
    }
    pub fn slice(&self, range: impl std::ops::RangeBounds<usize>) -> Self {
        use std::ops::Bound::*;
        let from = match range.start_bound() {
            Included(&from) => from,
            Excluded(&before) => before + 1,
            Unbounded => 0,
        };
        let to = match range.end_bound() {
            Included(&last) => last + 1,
            Excluded(&to) => to,
            Unbounded => self.len(),
        };
        Self {
            bytes: self.bytes.clone(),
            from: self.from + from,
            to: self.from + to,
        }
    }
    pub fn coalesce(self) -> Self {
        self
    }
}
impl AsRef<[u8]> for IoBuf {
    fn as_ref(&self) -> &[u8] {
        &self.bytes[self.from..self.to]
    }
}
impl From<Vec<u8>> for IoBuf {
    fn from(bytes: Vec<u8>) -> Self {
        let to = bytes.len();
        Self {
            bytes: bytes.into(),
            from: 0,
            to,
        }
    }
}
#[derive(Default)]
pub struct IoBufMut(Vec<u8>);
impl IoBufMut {
    pub fn with_capacity(n: usize) -> Self {
        Self(Vec::with_capacity(n))
    }
    pub fn len(&self) -> usize {
        self.0.len()
    }
    pub fn capacity(&self) -> usize {
        self.0.capacity()
    }
    pub fn clear(&mut self) {
        self.0.clear()
    }
    pub fn freeze(self) -> IoBuf {
        self.0.into()
    }
    pub fn coalesce(self) -> Self {
        self
    }
}
impl AsRef<[u8]> for IoBufMut {
    fn as_ref(&self) -> &[u8] {
        &self.0
    }
}
impl AsMut<[u8]> for IoBufMut {
    fn as_mut(&mut self) -> &mut [u8] {
        &mut self.0
    }
}
impl BufMut for IoBufMut {
    fn put_slice(&mut self, src: &[u8]) {
        self.0.extend_from_slice(src)
    }
}
impl From<IoBuf> for IoBufMut {
    fn from(b: IoBuf) -> Self {
        Self(b.as_ref().to_vec())
    }
}
impl From<Vec<u8>> for IoBufMut {
    fn from(b: Vec<u8>) -> Self {
        Self(b)
    }
}
pub const BLOB_PAGE_SIZE: u32 = 4096;
impl ReadOptions {
    pub const DONT_CACHE: Self = Self;
}
#[derive(Clone, Copy, Default)]
pub struct WriteOptions;
impl WriteOptions {
    pub const DONT_CACHE: Self = Self;
    pub const SYNC: Self = Self;
}
impl std::ops::BitOr for WriteOptions {
    type Output = Self;
    fn bitor(self, _: Self) -> Self {
        self
    }
}
pub trait Blob: Clone + Send + Sync + 'static {
    fn read_at(&self, offset: u64, len: usize, o: ReadOptions) -> impl Future<Output = Result<IoBufMut, Error>> + Send;
    fn write_at(
        &self,
        offset: u64,
        data: impl Into<IoBuf> + Send,
        o: WriteOptions,
    ) -> impl Future<Output = Result<(), Error>> + Send;
    fn resize(&self, len: u64) -> impl Future<Output = Result<(), Error>> + Send;
    fn sync(&self) -> impl Future<Output = Result<(), Error>> + Send;
    fn start_sync(&self) -> impl Future<Output = Handle<()>> + Send;
}
pub trait Storage: Send + Sync + 'static {
    type Blob: Blob;
    fn open(&self, partition: &str, name: &[u8]) -> impl Future<Output = Result<(Self::Blob, u64), Error>> + Send;
    fn remove(&self, partition: &str, name: Option<&[u8]>) -> impl Future<Output = Result<(), Error>> + Send;
    fn scan(&self, partition: &str) -> impl Future<Output = Result<Vec<Vec<u8>>, Error>> + Send;
}
pub mod memory {
    //! Every write is durable at once.
    use super::*;
    use std::{
        collections::BTreeMap,
        sync::{
            Arc, Mutex,
            atomic::{AtomicBool, Ordering::Relaxed},
        },
    };
    #[derive(Clone, Default)]
    pub struct MemBlob {
        held: Arc<Mutex<Vec<u8>>>,
        fails: Arc<AtomicBool>,
    }
    impl MemBlob {
        pub fn len(&self) -> usize {
            self.held.lock().unwrap().len()
        }
        pub fn bytes(&self) -> Vec<u8> {
            self.held.lock().unwrap().clone()
        }
        pub fn extend(&self, bytes: &[u8]) {
            self.held.lock().unwrap().extend_from_slice(bytes)
        }
        /// Turns a bit of the byte at a place.
        pub fn turn(&self, place: usize) {
            self.held.lock().unwrap()[place] ^= 1
        }
    }
    impl Blob for MemBlob {
        async fn read_at(&self, offset: u64, len: usize, _: ReadOptions) -> Result<IoBufMut, Error> {
            let end = offset.checked_add(len as u64).ok_or(Error::OffsetOverflow)?;
            let held = self.held.lock().unwrap();
            if end > held.len() as u64 {
                return Err(Error::BlobInsufficientLength);
            }
            Ok(held[offset as usize..end as usize].to_vec().into())
        }
        async fn write_at(&self, offset: u64, data: impl Into<IoBuf> + Send, _: WriteOptions) -> Result<(), Error> {
            if self.fails.load(Relaxed) {
                return Err(Error::WriteFailed);
            }
            let data = data.into();
            let mut held = self.held.lock().unwrap();
            let end = offset as usize + data.len();
            if held.len() < end {
                held.resize(end, 0);
            }
            held[offset as usize..end].copy_from_slice(data.as_ref());
            Ok(())
        }
        async fn resize(&self, len: u64) -> Result<(), Error> {
            self.held.lock().unwrap().resize(len as usize, 0);
            Ok(())
        }
        async fn sync(&self) -> Result<(), Error> {
            Ok(())
        }
        async fn start_sync(&self) -> Handle<()> {
            Handle::ready(Ok(()))
        }
    }
    #[derive(Clone, Default)]
    pub struct Mem {
        partitions: Arc<Mutex<Partitions>>,
        fails: Arc<AtomicBool>,
    }
    type Partitions = BTreeMap<String, BTreeMap<Vec<u8>, MemBlob>>;
    impl Mem {
        /// The same bytes on a disk of their own.
        pub fn copy(&self) -> Self {
            let copy = Self::default();
            for (partition, blobs) in self.partitions.lock().unwrap().iter() {
                for (name, blob) in blobs {
                    copy.blob(partition, name).extend(&blob.bytes());
                }
            }
            copy
        }
        /// From here on every write fails.
        pub fn fail_writes(&self) {
            self.fails.store(true, Relaxed)
        }
        fn blob(&self, partition: &str, name: &[u8]) -> MemBlob {
            let mut partitions = self.partitions.lock().unwrap();
            let blobs = partitions.entry(partition.into()).or_default();
            let new = || MemBlob {
                held: Default::default(),
                fails: self.fails.clone(),
            };
            blobs.entry(name.into()).or_insert_with(new).clone()
        }
    }
    impl Storage for Mem {
        type Blob = MemBlob;
        async fn open(&self, partition: &str, name: &[u8]) -> Result<(MemBlob, u64), Error> {
            let blob = self.blob(partition, name);
            let length = blob.len() as u64;
            Ok((blob, length))
        }
        async fn remove(&self, partition: &str, name: Option<&[u8]>) -> Result<(), Error> {
            let mut partitions = self.partitions.lock().unwrap();
            let Some(name) = name else {
                return partitions
                    .remove(partition)
                    .map(|_| ())
                    .ok_or(Error::PartitionMissing(partition.into()));
            };
            let blobs = partitions
                .get_mut(partition)
                .ok_or(Error::PartitionMissing(partition.into()))?;
            blobs
                .remove(name)
                .map(|_| ())
                .ok_or(Error::BlobMissing(partition.into()))
        }
        async fn scan(&self, partition: &str) -> Result<Vec<Vec<u8>>, Error> {
            let partitions = self.partitions.lock().unwrap();
            let blobs = partitions.get(partition);
            Ok(blobs.map_or(vec![], |blobs| blobs.keys().cloned().collect()))
        }
    }
}
