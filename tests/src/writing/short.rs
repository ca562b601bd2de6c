//! All short texts over some alphabets: what is written for two of them is equal exactly where they mean the same.

use super::compare::written;
use crate::group::{shown, Group, Test};
use crate::reference::{self, Meaning};
use std::collections::{BTreeMap, BTreeSet};

pub const TESTS: [Test; 4] = [
    ("all texts of up to 5 structural bytes, by the writer", |group| every(group, b"", b"[]{}:,\"1 ", 5)),
    ("all texts of up to 6 bytes of numbers, by the writer", |group| every(group, b"", b"-.e+019", 6)),
    ("all continuations of a string by up to 5 bytes", |group| every(group, b"\"", b"\"\\nu05a/\x7f", 5)),
    ("all continuations of an object by up to 6 bytes, by the writer", |group| {
        every(group, br#"{"b":1,"#, b"\"a:}1, ", 6)
    }),
];

/// What was written for each meaning, and all that was written.
#[derive(Default)]
struct Seen {
    of_meaning: BTreeMap<Meaning, Vec<u8>>,
    all: BTreeSet<Vec<u8>>,
}

impl Seen {
    /// Equal meanings have equal bytes, and a new meaning has new bytes.
    fn fits(&mut self, meaning: Meaning, bytes: Vec<u8>) -> bool {
        match self.of_meaning.get(&meaning) {
            Some(earlier) => *earlier == bytes,
            None => {
                self.of_meaning.insert(meaning, bytes.clone());
                self.all.insert(bytes)
            }
        }
    }
}

/// Compares the beginning with all continuations of up to this many bytes of the alphabet.
fn every(group: &mut Group, beginning: &[u8], alphabet: &[u8], length: usize) {
    extend(group, &mut Seen::default(), &mut beginning.to_vec(), alphabet, length);
}

fn extend(group: &mut Group, seen: &mut Seen, text: &mut Vec<u8>, alphabet: &[u8], length: usize) {
    group.write_each(text, 4 * text.len(), |needed| vec![needed]);
    if let Some(bytes) = written(text) {
        let fits = seen.fits(reference::meaning(text), bytes);
        group.judge(fits, || format!("{} and another text", shown(text)));
    }
    if length == 0 {
        return;
    }
    for &byte in alphabet {
        text.push(byte);
        extend(group, seen, text, alphabet, length - 1);
        text.pop();
    }
}
