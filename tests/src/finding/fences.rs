//! Texts, tables and pointers right beside memory that mustn't be touched; texts and pointers can't be written either.

use super::near::near;
use crate::fence::{Fenced, Side};
use crate::group::{shown, Group, Test};
use crate::random::Random;
use crate::{damage, library, point, reference, texts};

pub const TESTS: [Test; 2] = [
    ("nothing outside of the slices is touched, by the look-up", beside_fences),
    ("nothing outside of pointers of every ending is touched", endings),
];

const SIDES: [Side; 2] = [Side::Before, Side::Behind];

/// Fenced memory for a text, a table and a pointer.
struct Fences {
    text: Fenced,
    table: Fenced,
    pointer: Fenced,
}

impl Fences {
    fn new() -> Fences {
        Fences { text: Fenced::new(16), table: Fenced::new(64), pointer: Fenced::new(17) }
    }

    /// Compares the look-ups with a table of this many words, all slices on one side.
    fn compare(&mut self, group: &mut Group, text: &[u8], words: usize, pointer: &[u8], side: Side) {
        let mut expected_table = vec![9; words];
        let lent_text = self.text.bytes(text, side);
        let lent_pointer = self.pointer.bytes(pointer, side);
        let table = self.table.lent(&expected_table, side);
        let answer = library::find(lent_text, table, lent_pointer);
        let copy = table.to_vec();
        table.fill(9);
        let part = library::part(lent_text, table, lent_pointer);
        let expected = reference::find(text, &mut expected_table, pointer);
        group.accepted += usize::from(answer.number == 0);
        let is_equal = (answer, part) == expected && copy == expected_table && table == expected_table;
        group.judge(is_equal, || format!("{} in {}, {words} words", shown(pointer), shown(text)));
    }
}

/// The pointers of a text's values, and some near them.
fn pointers(text: &[u8], random: &mut Random) -> Vec<Vec<u8>> {
    let is_accepted = reference::read(text, &mut vec![0; 4 * text.len()]).number == 0;
    if !is_accepted {
        return vec![b"".to_vec(), b"/0".to_vec(), b"/~".to_vec()];
    }
    let tree = reference::tree(text);
    let own: Vec<Vec<u8>> = point::every(&tree).into_iter().map(|(pointer, _)| pointer).collect();
    let near: Vec<Vec<u8>> = own.iter().map(|pointer| near(pointer, random)).collect();
    [own, near].concat()
}

fn beside_fences(group: &mut Group) {
    let mut random = Random::new(74);
    let mut fences = Fences::new();
    for round in 0..1000 {
        let mut text = texts::text(&mut random, 12);
        if round % 4 == 0 {
            damage::truncate(&mut text, &mut random);
        }
        for pointer in pointers(&text, &mut random) {
            for side in SIDES {
                fences.compare(group, &text, 4 * text.len(), &pointer, side);
            }
        }
        for side in SIDES {
            fences.compare(group, &text, (4 * text.len()).saturating_sub(1), b"/0", side);
        }
    }
}

/// Pointers of many lengths, whose last bytes ask for more.
fn of_every_ending() -> Vec<Vec<u8>> {
    let mut all = Vec::new();
    for length in (0..=20).chain([4095, 4096, 65_535, 65_536, 65_537]) {
        for (beginning, filling) in [("/", "a"), ("/0/", "0"), ("/a/", "a"), ("/~0", "a"), ("/1", "0"), ("/", "~1")] {
            for ending in ["", "~", "~0", "~1", "/", "a", "0", "\u{80}"] {
                let mut pointer = [beginning, &filling.repeat(length), ending].concat().into_bytes();
                pointer.truncate(17 * 4096);
                all.push(pointer);
            }
        }
    }
    all
}

/// They are looked up in texts where a name or an index goes on.
fn endings(group: &mut Group) {
    let mut fences = Fences::new();
    let texts = [r#"{"aaaaaaaaaaaaaaaaaaaa":{"~":1}}"#, "[[0,[],2]]", r#"{"":"","a":{"\u0061":0}}"#, "\"\""];
    for pointer in of_every_ending() {
        for text in texts {
            for side in SIDES {
                fences.compare(group, text.as_bytes(), 4 * text.len(), &pointer, side);
            }
        }
    }
}
