//! Stand-in for commonware_codec: numbers with their highest byte first, and buffers of bytes.
#[derive(Debug, Clone, PartialEq, Eq)]
pub enum Error {
    EndOfBuffer,
    ExtraData(usize),
    Invalid(&'static str, &'static str),
}

pub trait Buf {
    fn remaining(&self) -> usize;
    fn copy_to_slice(&mut self, dst: &mut [u8]);
}
impl Buf for &[u8] {
    fn remaining(&self) -> usize {
        self.len()
    }
    fn copy_to_slice(&mut self, dst: &mut [u8]) {
        let (a, b) = self.split_at(dst.len());
        dst.copy_from_slice(a);
        *self = b;
    }
}
/// A reader that hands out copies.
pub struct Copying<'a>(pub &'a [u8]);
impl Buf for Copying<'_> {
    fn remaining(&self) -> usize {
        self.0.remaining()
    }
    fn copy_to_slice(&mut self, dst: &mut [u8]) {
        self.0.copy_to_slice(dst)
    }
}

pub trait BufMut {
    fn put_slice(&mut self, src: &[u8]);
    fn put_u32(&mut self, v: u32) {
        self.put_slice(&v.to_be_bytes())
    }
    fn put_u64(&mut self, v: u64) {
        self.put_slice(&v.to_be_bytes())
    }
}
impl BufMut for Vec<u8> {
    fn put_slice(&mut self, src: &[u8]) {
        self.extend_from_slice(src)
    }
}
impl BufMut for &mut [u8] {
    fn put_slice(&mut self, src: &[u8]) {
        let (a, b) = std::mem::take(self).split_at_mut(src.len());
        a.copy_from_slice(src);
        *self = b;
    }
}

pub trait FixedSize {
    const SIZE: usize;
}
pub trait EncodeSize {
    fn encode_size(&self) -> usize;
}
impl<T: FixedSize> EncodeSize for T {
    fn encode_size(&self) -> usize {
        T::SIZE
    }
}
pub trait Write {
    fn write(&self, buf: &mut impl BufMut);
}
pub trait Read: Sized {
    type Cfg: Clone + Send + Sync + 'static;
    fn read_cfg(buf: &mut impl Buf, cfg: &Self::Cfg) -> Result<Self, Error>;
}
pub trait ReadExt: Read<Cfg = ()> {
    fn read(buf: &mut impl Buf) -> Result<Self, Error> {
        Self::read_cfg(buf, &())
    }
}
impl<T: Read<Cfg = ()>> ReadExt for T {}
pub trait Encode: Write + EncodeSize {
    fn encode(&self) -> Vec<u8> {
        let mut v = Vec::with_capacity(self.encode_size());
        self.write(&mut v);
        v
    }
}
impl<T: Write + EncodeSize> Encode for T {}
pub trait Decode: Read {
    fn decode_cfg(mut buf: impl Buf, cfg: &Self::Cfg) -> Result<Self, Error> {
        let v = Self::read_cfg(&mut buf, cfg)?;
        match buf.remaining() {
            0 => Ok(v),
            n => Err(Error::ExtraData(n)),
        }
    }
}
impl<T: Read> Decode for T {}
pub trait Codec: Encode + Decode {}
impl<T: Encode + Decode> Codec for T {}
pub trait CodecShared: Codec + Send + Sync + 'static {}
impl<T: Codec + Send + Sync + 'static> CodecShared for T {}
pub trait CodecFixedShared: CodecShared + FixedSize + Read<Cfg = ()> {}
impl<T: CodecShared + FixedSize + Read<Cfg = ()>> CodecFixedShared for T {}

macro_rules! int {
    ($($t:ty),*) => {$(
        impl FixedSize for $t { const SIZE: usize = size_of::<$t>(); }
        impl Write for $t { fn write(&self, buf: &mut impl BufMut) { buf.put_slice(&self.to_be_bytes()) } }
        impl Read for $t {
            type Cfg = ();
            fn read_cfg(buf: &mut impl Buf, _: &()) -> Result<Self, Error> {
                if buf.remaining() < size_of::<$t>() { return Err(Error::EndOfBuffer); }
                let mut b = [0u8; size_of::<$t>()];
                buf.copy_to_slice(&mut b);
                Ok(<$t>::from_be_bytes(b))
            }
        }
    )*};
}
int!(u8, u16, u32, u64);
