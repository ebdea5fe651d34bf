//! A value as the original takes one.

use commonware_codec::{Buf, BufMut, EncodeSize, Error, Read, Write};

/// A value is its bytes and nothing else.
#[derive(Clone)]
pub struct Value(pub Vec<u8>);

impl Write for Value {
    fn write(&self, buf: &mut impl BufMut) {
        buf.put_slice(&self.0)
    }
}

impl EncodeSize for Value {
    fn encode_size(&self) -> usize {
        self.0.len()
    }
}

impl Read for Value {
    type Cfg = ();
    fn read_cfg(from: &mut impl Buf, _: &()) -> Result<Self, Error> {
        let mut bytes = vec![0; from.remaining()];
        from.copy_to_slice(&mut bytes);
        Ok(Self(bytes))
    }
}
