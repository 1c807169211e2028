//! Words and bytes that nothing was written to.

/// What stands in such a word.
pub const UNTOUCHED: u64 = 0xdead_beef_0bad_f00d;

/// What stands in such a byte.
pub const UNTOUCHED_BYTE: u8 = 0xbd;

/// An array of words that nothing was written to.
pub fn untouched(size: usize) -> Vec<u64> {
    vec![UNTOUCHED; size]
}

/// Whether nothing was written to any of the words.
pub fn is_untouched(words: &[u64]) -> bool {
    words.iter().all(|&word| word == UNTOUCHED)
}
