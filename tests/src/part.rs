//! A part of a text, by the offsets of its first byte and of the one behind its last.

#[repr(C)]
#[derive(Clone, Copy, Debug, PartialEq, Eq)]
pub struct Part {
    pub start: usize,
    pub end: usize,
}

impl Part {
    /// What a refusal leaves.
    pub const EMPTY: Part = Part { start: 0, end: 0 };
}
