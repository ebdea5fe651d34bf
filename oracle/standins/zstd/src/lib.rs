//! Stand-in for zstd: nothing is compressed.
pub mod zstd_safe {
    pub fn compress_bound(n: usize) -> usize {
        n
    }
}
