//! How merges are compared. A pair is a target and a patch, and so is a pair of tables.

use crate::answer::Answer;
use crate::group::{shown, Group};
use crate::lent::Lent;
use crate::{library, reference};

/// What the reference makes of a pair: its reading, the tables behind that, and the result where both are accepted.
struct Expected {
    reading: Answer,
    tables: [Lent<u32>; 2],
    result: Vec<u8>,
}

impl Expected {
    fn new(texts: [&[u8]; 2], words: [usize; 2]) -> Expected {
        let mut tables = words.map(Lent::new);
        let reading = reference::read_both(texts, tables.each_mut().map(Lent::slice));
        let result = if reading.number == 0 { reference::merged(texts) } else { Vec::new() };
        Expected { reading, tables, result }
    }

    fn put(&self, out: &mut [u8]) -> Answer {
        match self.reading.number {
            0 => reference::put(&self.result, out),
            _ => self.reading,
        }
    }
}

/// The least words that are enough for each text.
pub fn least(texts: [&[u8]; 2]) -> [usize; 2] {
    texts.map(|text| 4 * text.len())
}

impl Group {
    /// Compares the merges of a pair to outputs that are exact, one byte short, and some bytes longer than needed, with
    /// tables that have some words more than they need.
    pub fn merge(&mut self, target: impl AsRef<[u8]>, patch: impl AsRef<[u8]>) {
        let texts = [target.as_ref(), patch.as_ref()];
        let words = [4 * texts[0].len() + 3, 4 * texts[1].len() + 5];
        self.merge_each(texts, words, |needed| vec![needed, needed.saturating_sub(1), needed + 21]);
    }

    /// Compares one merge, with slices that are as long as needed and no longer.
    pub fn merge_exactly(&mut self, target: impl AsRef<[u8]>, patch: impl AsRef<[u8]>) {
        let texts = [target.as_ref(), patch.as_ref()];
        self.merge_each(texts, least(texts), |needed| vec![needed]);
    }

    /// Compares the merges of a pair with tables of so many words to outputs of all lengths that are named for the
    /// length needed.
    pub fn merge_each(&mut self, texts: [&[u8]; 2], words: [usize; 2], lengths: impl Fn(usize) -> Vec<usize>) {
        let expected = Expected::new(texts, words);
        self.accepted += usize::from(expected.reading.number == 0);
        for length in lengths(expected.result.len()) {
            self.merge_to(texts, words, length, &expected);
        }
    }

    /// Compares answer, tables and output, guards included.
    fn merge_to(&mut self, texts: [&[u8]; 2], words: [usize; 2], length: usize, expected: &Expected) {
        let (mut expected_out, mut tables, mut out) = (Lent::new(length), words.map(Lent::new), Lent::new(length));
        let expected_answer = expected.put(expected_out.slice());
        let answer = library::merge(texts, tables.each_mut().map(Lent::slice), out.slice());
        let is_equal = answer == expected_answer && tables == expected.tables && out == expected_out;
        self.judge(is_equal, || {
            let [target, patch] = texts.map(shown);
            let table = |at: usize| expected.tables[at].difference(&tables[at]).unwrap_or("equal".into());
            let bytes = expected_out.difference(&out).unwrap_or("equal".into());
            let lent = format!("tables of {words:?} words, {}, {}\n  output of {length}, {bytes}", table(0), table(1));
            let answers = format!("expected {expected_answer:?}\n       got {answer:?}");
            let written = &out.slice()[..length.min(answer.count as usize)];
            let outs = format!("result {}\n written {}", shown(&expected.result), shown(written));
            format!("{target} with\n  {patch}\n  {lent}\n  {answers}\n  {outs}")
        });
    }

    /// Compares the reference's result with one that is known, and the library's merges with the reference's.
    pub fn merge_known(&mut self, target: &str, patch: &str, known: &str) {
        let result = reference::merged([target.as_bytes(), patch.as_bytes()]);
        let tell = || format!("{target} with {patch}\n  known {known}\n  reference {}", shown(&result));
        self.judge(result == known.as_bytes(), tell);
        self.merge(target, patch);
    }

    /// Compares the reference's answer with a refusal that is known, and the library's merges with the reference's.
    pub fn merge_refused(&mut self, texts: [&[u8]; 2], length: usize, known: Answer) {
        let [mut target_table, mut patch_table] = least(texts).map(|words| vec![0; words]);
        let answer = reference::merge(texts, [&mut target_table, &mut patch_table], &mut vec![0; length]);
        let tell = || format!("{:?}\n  known {known:?}\n  reference {answer:?}", texts.map(shown));
        self.judge(answer == known, tell);
        self.merge_each(texts, least(texts), |_| vec![length]);
    }
}

/// What the library writes for a pair, if it accepts it, with lent slices of the least length that is always enough.
pub fn merged(target: impl AsRef<[u8]>, patch: impl AsRef<[u8]>) -> Option<Vec<u8>> {
    let texts = [target.as_ref(), patch.as_ref()];
    let [mut target_table, mut patch_table] = least(texts).map(|words| vec![0; words]);
    let mut out = vec![0; 6 * (texts[0].len() + texts[1].len())];
    let answer = library::merge(texts, [&mut target_table, &mut patch_table], &mut out);
    out.truncate(answer.count as usize);
    (answer.number == 0).then_some(out)
}
