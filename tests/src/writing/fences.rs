//! Texts, tables and outputs right beside memory that mustn't be touched, and texts in memory that can't be written.

use crate::fence::{Fenced, Side};
use crate::group::{shown, Group, Test};
use crate::random::Random;
use crate::{damage, library, reference, texts};

pub const TESTS: [Test; 1] = [("nothing outside of the slices is touched, by the writer", beside_fences)];

/// Fenced memory for a text, a table and an output.
struct Fences {
    text: Fenced,
    table: Fenced,
    out: Fenced,
}

impl Fences {
    /// Compares the writings of a text with slices of these lengths, all on one side.
    fn compare(&mut self, group: &mut Group, text: &[u8], [words, length]: [usize; 2], side: Side) {
        let (mut expected_table, mut expected_out) = (vec![9; words], vec![b'#'; length]);
        let table = self.table.lent(&expected_table, side);
        let out = self.out.lent(&expected_out, side);
        let answer = library::write(self.text.bytes(text, side), table, out);
        let expected = reference::write(text, &mut expected_table, &mut expected_out);
        group.accepted += usize::from(answer.number == 0);
        let is_equal = answer == expected && table == expected_table && out == expected_out;
        group.judge(is_equal, || format!("{}, {words} words, output of {length}", shown(text)));
    }
}

/// The length of the canonical text, or 0 where there is none.
fn needed(text: &[u8]) -> usize {
    let is_accepted = reference::read(text, &mut vec![0; 4 * text.len()]).number == 0;
    if is_accepted {
        reference::canonical(text).len()
    } else {
        0
    }
}

fn beside_fences(group: &mut Group) {
    let mut random = Random::new(58);
    let mut fences = Fences { text: Fenced::new(16), table: Fenced::new(64), out: Fenced::new(96) };
    for round in 0..2500 {
        let mut text = texts::text(&mut random, 12);
        if round % 4 == 0 {
            damage::truncate(&mut text, &mut random);
        }
        let (words, needed) = (4 * text.len(), needed(&text));
        for side in [Side::Before, Side::Behind] {
            for length in [needed, needed.saturating_sub(1), needed + 5, 0] {
                fences.compare(group, &text, [words, length], side);
            }
            fences.compare(group, &text, [words.saturating_sub(1), needed], side);
        }
    }
}
