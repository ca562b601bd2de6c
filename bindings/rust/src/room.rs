//! Tables and outputs that are long enough, so that the refusals 2 and 12 never appear.

/// Words that a table needs for each byte of its text.
const WORDS_PER_BYTE: usize = 4;

/// Bytes that a canonical text has at most for each byte of what it is made from.
const CANONICAL_GROWTH: usize = 6;

/// A table for a text. A text that is too long needs none, as it is refused before its table is looked at.
pub fn table(text: &[u8]) -> Vec<u32> {
    let bytes = if text.len() > crate::TEXT_BYTES { 0 } else { text.len() };
    vec![0; WORDS_PER_BYTE * bytes]
}

/// An output for what is written from texts of this length together. A longer result is refused as too long.
pub fn output(bytes: usize) -> Vec<u8> {
    vec![0; bytes.saturating_mul(CANONICAL_GROWTH).min(crate::TEXT_BYTES)]
}
