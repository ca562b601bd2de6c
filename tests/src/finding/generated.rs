//! Generated texts of all kinds: every value that can be named is found, and pointers near its own are as they must be.

use super::near::near;
use crate::answer::Answer;
use crate::group::{shown, Group, Test};
use crate::random::Random;
use crate::reference::Tree;
use crate::{library, point, reference, texts};

pub const TESTS: [Test; 4] = [
    ("every value of generated texts by its own pointer", every),
    ("the part found means what the value means", means),
    ("pointers near those of values of generated texts", near_ones),
    ("look-ups with a table that is lent again and again", again),
];

/// A generated text that is accepted, and its tree.
fn accepted(random: &mut Random, values: usize) -> (Vec<u8>, Tree) {
    let text = texts::accepted(random, values);
    let tree = reference::tree(&text);
    (text, tree)
}

fn every(group: &mut Group) {
    let mut random = Random::new(68);
    for round in 0..3000 {
        let (text, tree) = accepted(&mut random, 1 + round % 60);
        group.find_each(&text, point::every(&tree).into_iter().map(|(pointer, _)| pointer));
    }
}

/// The part by itself is a text of that value, and it is the part that the table has for the record found.
fn means(group: &mut Group) {
    let mut random = Random::new(69);
    for round in 0..1500 {
        let (text, tree) = accepted(&mut random, 1 + round % 40);
        let mut table = vec![0; 4 * text.len()];
        for (pointer, value) in point::every(&tree) {
            let part = library::part(&text, &mut table, &pointer);
            let answer = library::find(&text, &mut table, &pointer);
            let words = [table[4 * value.record] as usize, table[4 * value.record + 1] as usize];
            let found = text.get(part.start..part.end).unwrap_or(b"");
            let is_text = reference::read(found, &mut vec![0; 4 * found.len()]).number == 0;
            let fits = answer == Answer::accepted(value.record)
                && words == [part.start, part.end]
                && is_text
                && reference::meaning(found) == value.meaning();
            group.judge(fits, || format!("{} in {}: {answer:?} {part:?}", shown(&pointer), shown(&text)));
        }
    }
}

fn near_ones(group: &mut Group) {
    let mut random = Random::new(70);
    for round in 0..3000 {
        let (text, tree) = accepted(&mut random, 1 + round % 40);
        let own = point::every(&tree);
        let pointers: Vec<Vec<u8>> = own.iter().map(|(pointer, _)| near(pointer, &mut random)).collect();
        group.find_each(&text, &pointers);
        group.find_each(&text, pointers.iter().map(|pointer| near(pointer, &mut random)));
    }
}

/// Whatever an earlier call left in the table, the next is as it must be.
fn again(group: &mut Group) {
    let mut random = Random::new(71);
    let mut expected_table = vec![3; 20_000];
    let mut table = expected_table.clone();
    for round in 0..6000 {
        let text = texts::text(&mut random, 1 + round % 60);
        let words = (4 * text.len() + random.below(9)).min(table.len());
        let pointer = random.pick(&[&b""[..], b"/0", b"/a", b"/1/0", b"/", b"/~", b"/0/1/2"]);
        let (expected, expected_part) = reference::find(&text, &mut expected_table[..words], pointer);
        let answer = library::find(&text, &mut table[..words], pointer);
        let is_equal = answer == expected && table == expected_table;
        let part = library::part(&text, &mut table[..words], pointer);
        group.accepted += usize::from(answer.number == 0);
        let is_part_equal = part == expected_part && table == expected_table;
        group.judge(is_equal && is_part_equal, || {
            format!("{} in {}\n  expected {expected:?}\n       got {answer:?}", shown(pointer), shown(&text))
        });
    }
}
