//! Generated texts of all kinds, slices that are lent again and again, and texts that were written before.

use super::compare::written;
use crate::group::{shown, Group, Test};
use crate::random::Random;
use crate::{library, reference, texts};

pub const TESTS: [Test; 3] = [
    ("generated texts, by the writer", generated),
    ("generated texts with slices that are lent again and again", again),
    ("what was written is read, and written as it stands", as_it_stands),
];

fn generated(group: &mut Group) {
    let mut random = Random::new(55);
    for round in 0..8000 {
        group.write(&texts::text(&mut random, 1 + round % 60));
    }
}

/// Whatever an earlier call left in table and output, the next is as it must be.
fn again(group: &mut Group) {
    let mut random = Random::new(56);
    let (mut expected_table, mut expected_out) = (vec![3; 20_000], vec![b'#'; 4000]);
    let (mut table, mut out) = (expected_table.clone(), expected_out.clone());
    for round in 0..4000 {
        let text = texts::text(&mut random, 1 + round % 60);
        let (words, length) = (4 * text.len() + 8, random.below(text.len() * 2));
        let [words, length] = [words.min(table.len()), length.min(out.len())];
        let expected = reference::write(&text, &mut expected_table[..words], &mut expected_out[..length]);
        let answer = library::write(&text, &mut table[..words], &mut out[..length]);
        group.accepted += usize::from(answer.number == 0);
        let is_equal = answer == expected && table == expected_table && out == expected_out;
        group.judge(is_equal, || format!("{}\n  expected {expected:?}\n       got {answer:?}", shown(&text)));
    }
}

fn as_it_stands(group: &mut Group) {
    let mut random = Random::new(57);
    for round in 0..8000 {
        let text = texts::text(&mut random, 1 + round % 40);
        if let Some(canonical) = written(&text) {
            let reading = library::read(&canonical, &mut vec![0; 4 * canonical.len()]);
            let is_kept = reading.number == 0 && written(&canonical).as_ref() == Some(&canonical);
            group.accepted += 1;
            group.judge(is_kept, || format!("{}\n  {}", shown(&text), shown(&canonical)));
        }
    }
}
