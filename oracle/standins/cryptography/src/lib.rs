//! Stand-in for commonware_cryptography: the common CRC-32.
pub mod crc32 {
    pub struct Digest;
    impl Digest {
        pub const SIZE: usize = 4;
    }
}
const TABLE: [u32; 256] = {
    let mut t = [0u32; 256];
    let mut i = 0;
    while i < 256 {
        let (mut c, mut k) = (i as u32, 0);
        while k < 8 {
            c = if c & 1 == 1 { 0xEDB8_8320 ^ (c >> 1) } else { c >> 1 };
            k += 1;
        }
        t[i] = c;
        i += 1;
    }
    t
};
pub struct Crc32;
impl Crc32 {
    pub fn checksum(b: &[u8]) -> u32 {
        !b.iter()
            .fold(!0, |c, &x| TABLE[((c ^ x as u32) & 255) as usize] ^ (c >> 8))
    }
}
