//! Texts, tables and outputs right beside memory that mustn't be touched, and texts in memory that can't be written.

use super::compare::least;
use super::pairs::pair;
use crate::fence::{Fenced, Side};
use crate::group::{shown, Group, Test};
use crate::random::Random;
use crate::{damage, library, reference};

pub const TESTS: [Test; 2] = [
    ("nothing outside of the slices is touched, by the merge", beside_fences),
    ("nothing outside of texts of every ending is touched, by the merge", endings),
];

const SIDES: [Side; 2] = [Side::Before, Side::Behind];

/// Fenced memory for target and patch, for their tables, and for an output.
struct Fences {
    target: Fenced,
    patch: Fenced,
    target_table: Fenced,
    patch_table: Fenced,
    out: Fenced,
}

impl Fences {
    fn new() -> Fences {
        let [target, patch, out] = [16, 16, 96].map(Fenced::new);
        let [target_table, patch_table] = [64, 64].map(Fenced::new);
        Fences { target, patch, target_table, patch_table, out }
    }

    /// Compares the merge with tables of so many words to an output of this length, all slices on one side.
    fn compare(&mut self, group: &mut Group, texts: [&[u8]; 2], words: [usize; 2], length: usize, side: Side) {
        let mut expected_tables = words.map(|words| vec![9; words]);
        let mut expected_out = vec![b'#'; length];
        let lent = [self.target.bytes(texts[0], side), self.patch.bytes(texts[1], side)];
        let target_table = self.target_table.lent(&expected_tables[0], side);
        let patch_table = self.patch_table.lent(&expected_tables[1], side);
        let out = self.out.lent(&expected_out, side);
        let answer = library::merge(lent, [target_table, patch_table], out);
        let tables = expected_tables.each_mut().map(|table| &mut table[..]);
        let expected = reference::merge(texts, tables, &mut expected_out);
        group.accepted += usize::from(answer.number == 0);
        let are_tables_equal = target_table == expected_tables[0] && patch_table == expected_tables[1];
        let is_equal = answer == expected && are_tables_equal && out == expected_out;
        group.judge(is_equal, || format!("{:?}, {words:?} words, output of {length}", texts.map(shown)));
    }

    /// Compares merges with outputs around the length needed and tables that are exact or one word short.
    fn around(&mut self, group: &mut Group, texts: [&[u8]; 2]) {
        let exact = least(texts);
        let needed = needed(texts);
        let short = exact.map(|words| words.saturating_sub(1));
        for side in SIDES {
            for length in [needed, needed.saturating_sub(1), needed + 5] {
                self.compare(group, texts, exact, length, side);
            }
            self.compare(group, texts, [short[0], exact[1]], needed, side);
            self.compare(group, texts, [exact[0], short[1]], needed, side);
        }
    }
}

/// The length of the result, or 0 where there is none.
fn needed(texts: [&[u8]; 2]) -> usize {
    let mut tables = least(texts).map(|words| vec![0; words]);
    let reading = reference::read_both(texts, tables.each_mut().map(|table| &mut table[..]));
    if reading.number == 0 {
        reference::merged(texts).len()
    } else {
        0
    }
}

fn beside_fences(group: &mut Group) {
    let mut random = Random::new(106);
    let mut fences = Fences::new();
    for round in 0..1200 {
        let [mut target, mut patch] = pair(&mut random, 1 + round % 4).map(String::into_bytes);
        match round % 8 {
            0 => damage::truncate(&mut target, &mut random),
            1 => damage::truncate(&mut patch, &mut random),
            _ => {}
        }
        fences.around(group, [&target, &patch]);
    }
}

/// Texts whose last byte belongs to a value or a name that is compared, or asks for more.
fn endings(group: &mut Group) {
    let mut fences = Fences::new();
    let texts =
        ["1", "\"a\"", "null", "{}", "[]", "[1", "\"\\", "-", "{\"a", "{\"a\":1}", "{\"a\":{\"b\":10}}", "", "1e"];
    for target in texts {
        for patch in texts {
            fences.around(group, [target.as_bytes(), patch.as_bytes()]);
        }
    }
}
