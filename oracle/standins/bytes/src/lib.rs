//! Stand-in for bytes: bytes, and how many of them were read.
pub struct Bytes(Vec<u8>, usize);
impl From<Vec<u8>> for Bytes {
    fn from(v: Vec<u8>) -> Self {
        Self(v, 0)
    }
}
impl From<commonware_runtime::IoBuf> for Bytes {
    fn from(v: commonware_runtime::IoBuf) -> Self {
        Self(v.as_ref().to_vec(), 0)
    }
}
impl commonware_codec::Buf for Bytes {
    fn remaining(&self) -> usize {
        self.0.len() - self.1
    }
    fn copy_to_slice(&mut self, dst: &mut [u8]) {
        dst.copy_from_slice(&self.0[self.1..self.1 + dst.len()]);
        self.1 += dst.len();
    }
}
