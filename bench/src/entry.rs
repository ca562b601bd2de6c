//! What is timed: an entry of the library beside its peers, on texts, with goals for its speed.

use crate::texts::Text;

pub const LONGEST: usize = 1 << 20;

/// What is lent to the library alone, again and again without being cleared.
pub struct Lent {
    pub table: Vec<u32>,
    pub patch_table: Vec<u32>,
    pub out: Vec<u8>,
}

impl Lent {
    pub fn for_texts(texts: &[Text]) -> Lent {
        let table = |length: fn(&Text) -> usize| vec![1; 4 * texts.iter().map(length).max().unwrap_or(0)];
        let (table, patch_table) = (table(|text| text.padded.len()), table(|text| text.patch.len()));
        Lent { table, patch_table, out: vec![1; LONGEST] }
    }
}

pub struct Contestant {
    pub name: &'static str,
    /// Does its work on the text, gives back what it allocated, and tells whether it accepts the text.
    pub accepts: fn(&Text, &mut Lent) -> bool,
}

/// A text, a contestant, and the multiple of its speed that the library must reach.
pub type Ratio = (&'static str, &'static str, f64);

pub struct Entry {
    /// The library's own is the first.
    pub contestants: &'static [Contestant],
    pub ratios: &'static [Ratio],
    /// Texts of all kinds, of at most so many bytes.
    pub texts: fn(usize) -> Vec<Text>,
    /// Texts that are of the greatest length alone.
    pub longest: fn() -> Vec<Text>,
}

impl Entry {
    pub fn name(&self) -> &'static str {
        self.contestants[0].name
    }
}
