//! The decoder in the library that the feature `linked` links.

unsafe extern "C" {
    /// `uint64_t decode_telegram(const uint8_t *bytes, size_t len, uint64_t seed)`
    fn decode_telegram(bytes: *const u8, len: usize, seed: u64) -> u64;
}

/// Decodes a telegram and folds what it found into the seed.
pub fn decode(telegram: &[u8], seed: u64) -> u64 {
    // SAFETY: the function only reads, and only these bytes.
    unsafe { decode_telegram(telegram.as_ptr(), telegram.len(), seed) }
}
