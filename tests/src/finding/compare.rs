//! How look-ups are compared.

use crate::answer::Answer;
use crate::group::{shown, Group};
use crate::lent::Lent;
use crate::part::Part;
use crate::reference::Tree;
use crate::{library, reference};

/// What the reference makes of a text: its reading, the table behind that, and the tree of an accepted one.
struct Expected {
    reading: Answer,
    table: Lent<u32>,
    tree: Option<Tree>,
}

impl Expected {
    fn new(text: &[u8], words: usize) -> Expected {
        let mut table = Lent::new(words);
        let reading = reference::read(text, table.slice());
        let tree = (reading.number == 0).then(|| reference::tree(text));
        Expected { reading, table, tree }
    }

    fn look_up(&self, pointer: &[u8]) -> (Answer, Part) {
        match &self.tree {
            Some(tree) => reference::look_up(tree, pointer),
            None => (self.reading, Part::EMPTY),
        }
    }
}

impl Group {
    /// Compares the look-ups of a pointer with a table that has three words more than it needs.
    pub fn find(&mut self, text: &[u8], pointer: &[u8]) {
        self.find_each(text, [pointer]);
    }

    /// The same for many pointers.
    pub fn find_each<P: AsRef<[u8]>>(&mut self, text: &[u8], pointers: impl IntoIterator<Item = P>) {
        self.find_with(text, 4 * text.len() + 3, pointers);
    }

    /// Compares the look-ups of pointers with a table of this many words.
    pub fn find_with<P: AsRef<[u8]>>(&mut self, text: &[u8], words: usize, pointers: impl IntoIterator<Item = P>) {
        let expected = Expected::new(text, words);
        self.accepted += usize::from(expected.reading.number == 0);
        for pointer in pointers {
            self.find_one(text, words, pointer.as_ref(), &expected);
        }
    }

    /// Compares the answers of both entries and the table that each leaves, guards included.
    fn find_one(&mut self, text: &[u8], words: usize, pointer: &[u8], expected: &Expected) {
        let (expected_answer, expected_part) = expected.look_up(pointer);
        let (mut table, mut table_of_part) = (Lent::new(words), Lent::new(words));
        let answer = library::find(text, table.slice(), pointer);
        let part = library::part(text, table_of_part.slice(), pointer);
        let tell = |table: &Lent<u32>| {
            let table = expected.table.difference(table).unwrap_or("equal".into());
            format!("{} in\n  {}\n  table of {words} words, {table}", shown(pointer), shown(text))
        };
        self.judge(answer == expected_answer && table == expected.table, || {
            format!("{}\n  expected {expected_answer:?}\n       got {answer:?}", tell(&table))
        });
        self.judge(part == expected_part && table_of_part == expected.table, || {
            format!("{}\n  expected {expected_part:?}\n       got {part:?}", tell(&table_of_part))
        });
    }

    /// Compares the reference with a record and its part that are known, and the library's look-ups with the reference.
    pub fn find_known(&mut self, text: &[u8], pointer: &[u8], record: usize, known: &[u8]) {
        let (answer, part) = reference::find(text, &mut vec![0; 4 * text.len()], pointer);
        let is_known = answer == Answer::accepted(record) && &text[part.start..part.end] == known;
        self.judge(is_known, || format!("{} in {}\n  reference {answer:?} {part:?}", shown(pointer), shown(text)));
        self.find(text, pointer);
    }

    /// Compares the reference with a refusal that is known, and the library's look-ups with the reference.
    pub fn find_refused(&mut self, text: &[u8], pointer: &[u8], known: Answer) {
        let (answer, part) = reference::find(text, &mut vec![0; 4 * text.len()], pointer);
        let is_known = answer == known && part == Part::EMPTY;
        self.judge(is_known, || format!("{} in {}\n  reference {answer:?} {part:?}", shown(pointer), shown(text)));
        self.find(text, pointer);
    }
}
