//! Whitespace of every length between all tokens, broken or not by a byte that is no whitespace.

use crate::group::{Group, Test};

pub const TESTS: [Test; 1] = [("whitespace of every length at every place", every_length)];

const TOKENS: [&[u8]; 16] =
    [b"[", b"{", b"\"a\"", b":", b"1", b",", b"\"b\"", b":", b"[", b"]", b"}", b",", b"null", b",", b"\"c\"", b"]"];
const LONGEST: usize = 35;

/// The tokens in a row, with these bytes before the token of this number.
fn with_gap(gap: usize, bytes: &[u8]) -> Vec<u8> {
    [&TOKENS[..gap].concat(), bytes, &TOKENS[gap..].concat()].concat()
}

fn every_length(group: &mut Group) {
    for gap in 0..=TOKENS.len() {
        for length in 0..=LONGEST {
            for byte in *b" \t\n\r" {
                group.read(&with_gap(gap, &vec![byte; length]));
            }
            let mixed = b" \n\t\r".repeat(LONGEST);
            group.read(&with_gap(gap, &mixed[..length]));
            for byte in *b"\x00\x08\x0b\x0c\x1f!\x85\xa0" {
                group.read(&with_gap(gap, &[&mixed[..length], &[byte]].concat()));
            }
        }
    }
}
