//! Texts one byte shorter than the ceiling of 1,048,576 bytes, exactly that long, and longer.

use crate::group::{Group, Test};

pub const TESTS: [Test; 2] =
    [("texts around the longest", around_longest), ("long texts with short tables", short_tables)];

const LONGEST: usize = 1_048_576;

/// A text of this length: the beginning, the filling over and over, and the end.
fn filled(length: usize, beginning: &[u8], filling: &[u8], end: &[u8]) -> Vec<u8> {
    let room = length - beginning.len() - end.len();
    let mut text = beginning.to_vec();
    while text.len() < beginning.len() + room {
        let left = beginning.len() + room - text.len();
        text.extend_from_slice(&filling[..filling.len().min(left)]);
    }
    text.extend_from_slice(end);
    text
}

fn of_each_length(group: &mut Group, beginning: &[u8], filling: &[u8], end: &[u8]) {
    for length in [LONGEST - 1, LONGEST, LONGEST + 1] {
        group.read(&filled(length, beginning, filling, end));
    }
}

fn around_longest(group: &mut Group) {
    accepted(group);
    refused(group);
}

fn accepted(group: &mut Group) {
    of_each_length(group, b"1", b" ", b"");
    of_each_length(group, b"", b"\n\t\r ", b"null");
    of_each_length(group, b"\"", b"a", b"\"");
    of_each_length(group, b"[", b"0, ", b" 0]");
    of_each_length(group, b"{\"", b"abcdefghijklmnopqrstuvwxyz", b"\":{}}");
}

/// A text that is unfinished, or whose fault is its last byte.
fn refused(group: &mut Group) {
    of_each_length(group, b"\"", b"a", b"");
    of_each_length(group, b"[", b"0,   ", b"");
    of_each_length(group, b"", b" ", b"");
    of_each_length(group, b"\"", b"\\u0041", b"\x00");
    of_each_length(group, b"\"", b"a", b"\x80");
    of_each_length(group, b"[\"", b"a", b"\"}");
    of_each_length(group, b"{\"a\":0,", b" ", b"\"a\"");
    of_each_length(group, b"]", b" ", b"");
}

/// The length is judged before the table is, and the table before the text.
fn short_tables(group: &mut Group) {
    for length in [LONGEST, LONGEST + 1, 2 * LONGEST, 4 * LONGEST + 3] {
        for text in [filled(length, b"[", b"1,1,", b"1]"), filled(length, b"x", b"y", b"")] {
            for words in [0, length, 4 * LONGEST - 1] {
                group.read_into(&text, words);
            }
        }
    }
}
