//! All short texts over some alphabets, each by itself or behind the beginning of an object.

use crate::group::{Group, Test};

pub const TESTS: [Test; 4] = [
    ("all texts of up to 3 telling bytes", telling),
    ("all texts of up to 5 structural bytes", structural),
    ("all texts of up to 6 bytes of numbers", numerical),
    ("all continuations of an object by up to 6 bytes", members),
];

fn telling(group: &mut Group) {
    every(group, b"", b"[]{}:,\"\\/ntrufalse-+.E019 \t\n\r\x00\x1f\x7f\x80", 3);
}

fn structural(group: &mut Group) {
    every(group, b"", b"[]{}:,\"1", 5);
}

fn numerical(group: &mut Group) {
    every(group, b"", b"-+.e019", 6);
}

fn members(group: &mut Group) {
    every(group, br#"{"a":1,"#, b"\"a:}1, ", 6);
}

/// Compares the beginning with all continuations of up to this many bytes of the alphabet.
fn every(group: &mut Group, beginning: &[u8], alphabet: &[u8], length: usize) {
    group.read(beginning);
    if length == 0 {
        return;
    }
    for &byte in alphabet {
        every(group, &[beginning, &[byte]].concat(), alphabet, length - 1);
    }
}
