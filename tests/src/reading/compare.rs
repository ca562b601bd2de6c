//! How readings are compared.

use crate::answer::Answer;
use crate::group::{shown, Group};
use crate::lent::Lent;
use crate::{library, reference};

impl Group {
    /// Compares the readings of a text with a table that has three words more than it needs.
    pub fn read(&mut self, text: &[u8]) {
        self.read_into(text, 4 * text.len() + 3);
    }

    /// Compares answer and table, guards included, of the readings of a text with a table of this many words.
    pub fn read_into(&mut self, text: &[u8], words: usize) {
        let (mut expected, mut got) = (Lent::new(words), Lent::new(words));
        let expected_answer = reference::read(text, expected.slice());
        let got_answer = library::read(text, got.slice());
        let difference = expected.difference(&got);
        self.accepted += usize::from(expected_answer.number == 0);
        self.judge(expected_answer == got_answer && difference.is_none(), || {
            let table = difference.unwrap_or("equal".into());
            let answers = format!("expected {expected_answer:?}\n       got {got_answer:?}");
            format!("{}\n  table of {words} words, {table}\n  {answers}", shown(text))
        });
    }

    /// Compares the reference's answer with one that is known, and the library's reading with the reference's.
    pub fn read_known(&mut self, text: &[u8], known: Answer) {
        let answer = reference::read(text, Lent::new(4 * text.len()).slice());
        self.judge(answer == known, || format!("{}\n  known {known:?}\n  reference {answer:?}", shown(text)));
        self.read(text);
    }
}
