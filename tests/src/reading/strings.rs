//! Strings and names: every character, every escape, and telling bytes at every place of runs of every length.

use crate::group::{Group, Test};

pub const TESTS: [Test; 3] = [
    ("every byte as a character and behind a backslash", characters),
    ("every byte as each of four hex digits", hex_digits),
    ("telling bytes in runs of every length", runs),
];

const LONGEST: usize = 34;

/// Compares the characters as a whole text, inside a name, and where the text ends behind them.
fn in_each_place(group: &mut Group, characters: &[u8]) {
    group.read(&[b"\"", characters, b"\""].concat());
    group.read(&[b"{\"", characters, b"\":[\"", characters, b"\"]}"].concat());
    group.read(&[b"[\"", characters].concat());
}

fn characters(group: &mut Group) {
    for byte in 0..=255 {
        in_each_place(group, &[byte]);
        in_each_place(group, &[b'\\', byte]);
        in_each_place(group, &[b'a', b'\\', byte, b'z']);
    }
}

fn hex_digits(group: &mut Group) {
    for place in 0..4 {
        for byte in 0..=255 {
            let mut digits = *b"d8Aa";
            digits[place] = byte;
            in_each_place(group, &[b"\\u", &digits[..]].concat());
            in_each_place(group, &[b"\\u", &digits[..=place]].concat());
        }
    }
}

fn runs(group: &mut Group) {
    let telling: [&[u8]; 9] = [b"\x00", b"\x1f", b" ", b"\"", b"\\", b"\\n", b"\\u0041", b"\x7f", b"\x80"];
    for length in 0..=LONGEST {
        for place in 0..=length {
            for piece in telling {
                let run = [&vec![b'a'; place][..], piece, &vec![b'z'; length - place]].concat();
                in_each_place(group, &run);
            }
        }
    }
}
