//! Tables and outputs to lend, each cut from the middle of a longer stretch, so that a stray write shows on either side.

const GUARD: usize = 16;

/// What a lent slice holds.
pub trait Item: Copy + PartialEq + std::fmt::Display {
    /// What no entry writes at this place: it has its highest bit set, as no offset, no count and no ASCII byte has.
    fn pattern(at: usize) -> Self;
}

fn mixed(at: usize) -> u32 {
    (at as u32).wrapping_mul(2_654_435_761)
}

impl Item for u32 {
    fn pattern(at: usize) -> u32 {
        mixed(at) | 0x8000_0000
    }
}

impl Item for u8 {
    fn pattern(at: usize) -> u8 {
        (mixed(at) >> 24) as u8 | 0x80
    }
}

#[derive(Clone, PartialEq, Eq)]
pub struct Lent<T> {
    items: Vec<T>,
}

impl<T: Item> Lent<T> {
    pub fn new(length: usize) -> Lent<T> {
        Lent { items: (0..length + 2 * GUARD).map(T::pattern).collect() }
    }

    pub fn slice(&mut self) -> &mut [T] {
        let end = self.items.len() - GUARD;
        &mut self.items[GUARD..end]
    }

    /// The first item that differs, numbered from the slice's start (so a guard before it is negative).
    pub fn difference(&self, other: &Lent<T>) -> Option<String> {
        let at = self.items.iter().zip(&other.items).position(|(one, two)| one != two)?;
        let number = at as i64 - GUARD as i64;
        Some(format!("item {number}: expected {}, got {}", self.items[at], other.items[at]))
    }
}
