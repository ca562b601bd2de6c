//! Results around the ceiling of 1,048,576 bytes (13), which goes before a short output (12), and the longest texts.

use crate::answer::Answer;
use crate::group::{Group, Test};

pub const TESTS: [Test; 4] = [
    ("results one byte around the longest, of each kind that grows", around),
    ("13 goes before 12, with the length needed", first),
    ("the longest result of all", of_all),
    ("texts around the longest, by the writer", texts),
];

const LONGEST: usize = 1_048_576;

/// A piece that grows to so many bytes when it is written, and what stands before letters, behind them and at the end.
struct Growing {
    piece: &'static str,
    written: usize,
    around: [&'static str; 3],
}

const GROWING: [Growing; 6] = [
    Growing { piece: "\x7f", written: 6, around: ["\"", "", "\""] },
    Growing { piece: "\\n", written: 6, around: ["\"", "", "\""] },
    Growing { piece: "\\r\\uABCD", written: 12, around: ["[\"", "", "\"]"] },
    Growing { piece: "\x7f", written: 6, around: ["{\"a\":1,\"", "", "\":[]}"] },
    Growing { piece: "1.5,", written: 6, around: ["[\"", "\",", "0]"] },
    Growing { piece: "10,", written: 4, around: ["[\"", "\",", "0]"] },
];

impl Growing {
    /// A text whose canonical text has this many bytes.
    fn text(&self, length: usize) -> Vec<u8> {
        let room = length - self.around.concat().len();
        let letters = "x".repeat(room % self.written);
        let [before, between, behind] = self.around;
        format!("{before}{letters}{between}{}{behind}", self.piece.repeat(room / self.written)).into_bytes()
    }
}

fn around(group: &mut Group) {
    for kind in GROWING {
        for length in [LONGEST - 1, LONGEST, LONGEST + 1] {
            let text = kind.text(length);
            group.write_each(&text, 4 * text.len(), |needed| {
                assert!(needed == length, "{needed} bytes instead of {length}");
                vec![needed - 1, needed, needed + 1]
            });
        }
    }
}

fn first(group: &mut Group) {
    for (length, number) in [(LONGEST, 12), (LONGEST + 1, 13), (2 * LONGEST, 13)] {
        let text = GROWING[0].text(length);
        for room in [0, 1, LONGEST - 1] {
            group.write_refused(&text, room, Answer::refused(number, 3, length));
        }
    }
    let text = GROWING[0].text(LONGEST + 1);
    for room in [LONGEST, LONGEST + 1, 2 * LONGEST] {
        group.write_refused(&text, room, Answer::refused(13, 3, LONGEST + 1));
    }
}

/// As long as a text can be, and nearly six times as long when written; then the same with short tables.
fn of_all(group: &mut Group) {
    let text = format!("\"{}\"", "\x7f".repeat(LONGEST - 2));
    let needed = 6 * (LONGEST - 2) + 2;
    group.write_refused(text.as_bytes(), needed, Answer::refused(13, 3, needed));
    for words in [0, 4 * LONGEST - 1] {
        group.write_each(text.as_bytes(), words, |_| vec![0, 100]);
    }
}

/// Texts that are written as long as they are, and texts of which little is left.
fn texts(group: &mut Group) {
    for length in [LONGEST - 1, LONGEST, LONGEST + 1] {
        let letters = format!("\"{}\"", "a".repeat(length - 2));
        let spaces = format!("{}[0]", " ".repeat(length - 3));
        for text in [letters, spaces] {
            group.write_each(text.as_bytes(), 4 * length, |needed| vec![needed, needed.max(1) - 1]);
        }
    }
}
