//! How writings are compared.

use crate::answer::Answer;
use crate::group::{shown, Group};
use crate::lent::Lent;
use crate::{library, reference};

/// What the reference makes of a text: its reading, the table behind that, and the canonical text of an accepted one.
struct Expected {
    reading: Answer,
    table: Lent<u32>,
    canonical: Vec<u8>,
}

impl Expected {
    fn new(text: &[u8], words: usize) -> Expected {
        let mut table = Lent::new(words);
        let reading = reference::read(text, table.slice());
        let canonical = if reading.number == 0 { reference::canonical(text) } else { Vec::new() };
        Expected { reading, table, canonical }
    }

    fn put(&self, out: &mut [u8]) -> Answer {
        match self.reading.number {
            0 => reference::put(&self.canonical, out),
            _ => self.reading,
        }
    }
}

impl Group {
    /// Compares the writings of a text to outputs that are exact, one byte short, and some bytes longer than needed,
    /// with a table that has three words more than it needs.
    pub fn write(&mut self, text: &[u8]) {
        self.write_each(text, 4 * text.len() + 3, |needed| vec![needed, needed.saturating_sub(1), needed + 21]);
    }

    /// Compares the writings of a text with a table of this many words to outputs of all lengths that are named for the
    /// length needed.
    pub fn write_each(&mut self, text: &[u8], words: usize, lengths: impl Fn(usize) -> Vec<usize>) {
        let expected = Expected::new(text, words);
        self.accepted += usize::from(expected.reading.number == 0);
        for length in lengths(expected.canonical.len()) {
            self.write_to(text, words, length, &expected);
        }
    }

    /// Compares answer, table and output, guards included.
    fn write_to(&mut self, text: &[u8], words: usize, length: usize, expected: &Expected) {
        let (mut expected_out, mut table, mut out) = (Lent::new(length), Lent::new(words), Lent::new(length));
        let expected_answer = expected.put(expected_out.slice());
        let answer = library::write(text, table.slice(), out.slice());
        let is_equal = answer == expected_answer && table == expected.table && out == expected_out;
        self.judge(is_equal, || {
            let table = expected.table.difference(&table).unwrap_or("equal".into());
            let bytes = expected_out.difference(&out).unwrap_or("equal".into());
            let lent = format!("table of {words} words, {table}\n  output of {length} bytes, {bytes}");
            let answers = format!("expected {expected_answer:?}\n       got {answer:?}");
            let written = &out.slice()[..length.min(answer.count as usize)];
            let outs = format!("canonical {}\n   written {}", shown(&expected.canonical), shown(written));
            format!("{}\n  {lent}\n  {answers}\n  {outs}", shown(text))
        });
    }

    /// Compares the reference's canonical text with one that is known, and the library's writings with the reference's.
    pub fn write_known(&mut self, text: &[u8], known: &[u8]) {
        let canonical = reference::canonical(text);
        let tell = || format!("{}\n  known {}\n  reference {}", shown(text), shown(known), shown(&canonical));
        self.judge(canonical == known, tell);
        self.write(text);
    }

    /// Compares the reference's answer with a refusal that is known, and the library's writings with the reference's.
    pub fn write_refused(&mut self, text: &[u8], length: usize, known: Answer) {
        let (mut table, mut out) = (vec![0; 4 * text.len()], vec![0; length]);
        let answer = reference::write(text, &mut table, &mut out);
        self.judge(answer == known, || format!("{}\n  known {known:?}\n  reference {answer:?}", shown(text)));
        self.write_each(text, table.len(), |_| vec![length]);
    }
}

/// What the library writes for a text, if it accepts it, with lent slices of the least length that is always enough.
pub fn written(text: &[u8]) -> Option<Vec<u8>> {
    let (mut table, mut out) = (vec![0; 4 * text.len()], vec![0; 6 * text.len()]);
    let answer = library::write(text, &mut table, &mut out);
    out.truncate(answer.count as usize);
    (answer.number == 0).then_some(out)
}
