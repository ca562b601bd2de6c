//! Pointers around the ceiling of 65,536 bytes (10), and much longer ones.

use crate::answer::Answer;
use crate::group::{Group, Test};

pub const TESTS: [Test; 4] = [
    ("pointers around the longest that name something", named),
    ("pointers around the longest that name nothing", unnamed),
    ("pointers around the longest with a fault at every place of interest", faults),
    ("pointers around the longest that end in a bare ~", bare),
];

const LONGEST: usize = 65_536;
const LENGTHS: [usize; 7] =
    [LONGEST - 2, LONGEST - 1, LONGEST, LONGEST + 1, LONGEST + 2, 2 * LONGEST + 1, 20 * LONGEST];

/// The beginning, and then the filling over and over, up to this length.
fn filled(length: usize, beginning: &[u8], filling: &[u8]) -> Vec<u8> {
    beginning.iter().chain(filling.iter().cycle()).take(length).copied().collect()
}

/// One name that a pointer of each length names if it may be so long: letters, and pairs.
fn named(group: &mut Group) {
    for length in [LONGEST - 1, LONGEST, LONGEST + 1] {
        let text = format!("[{{\"{}\":[7]}}]", "a".repeat(length - 5));
        let pointer = format!("/0/{}/0", "a".repeat(length - 5));
        match length > LONGEST {
            false => group.find_known(text.as_bytes(), pointer.as_bytes(), 3, b"7"),
            true => group.find_refused(text.as_bytes(), pointer.as_bytes(), Answer::refused(10, 2, LONGEST)),
        }
        let pairs = (length - 1) / 2;
        let text = format!("{{\"{}{}\":1}}", "\\u007e/".repeat(pairs / 2), "b".repeat(length - 1 - pairs / 2 * 4));
        let pointer = format!("/{}{}", "~0~1".repeat(pairs / 2), "b".repeat(length - 1 - pairs / 2 * 4));
        group.find(text.as_bytes(), pointer.as_bytes());
    }
}

/// Where nothing is there 11 has a place anywhere up to the end, and 10 goes before it.
fn unnamed(group: &mut Group) {
    let texts = [r#"{"":{"":{"":1}},"a":1}"#, "[[[0]]]", "0", r#"{"\u0000":1}"#];
    let fillings: [&[u8]; 8] = [b"/", b"a", b"0", b"/0", b"/~0", b"~1", b"9", b"\x00"];
    for length in LENGTHS {
        let pointers: Vec<Vec<u8>> = fillings.iter().map(|filling| filled(length, b"/", filling)).collect();
        for text in texts {
            group.find_each(text.as_bytes(), &pointers);
        }
    }
}

/// Whichever fault is first counts, be it behind the ceiling or not.
fn faults(group: &mut Group) {
    let mut pointers = Vec::new();
    for length in LENGTHS {
        for place in [0, 1, 2, 1000, LONGEST - 2, LONGEST - 1, LONGEST, LONGEST + 1, length - 1] {
            for fault in ["\u{80}".as_bytes(), b"~", b"~2", b"~~", b"~0", b"~1", b"\xff", b"/~"] {
                let mut pointer = filled(length, b"/", b"a");
                for (at, &byte) in fault.iter().enumerate() {
                    if let Some(put) = pointer.get_mut(place + at) {
                        *put = byte;
                    }
                }
                pointers.push(pointer);
            }
        }
    }
    group.find_each(b"{}", &pointers);
    group.find_each(b"1 2", pointers.iter().step_by(7));
}

/// A `~` as the last byte, which may be that before the ceiling, and every byte behind it.
fn bare(group: &mut Group) {
    for length in LENGTHS {
        let pointer = [&filled(length - 1, b"/", b"a")[..], b"~"].concat();
        let place = length.min(LONGEST);
        group.find_refused(b"[]", &pointer, Answer::refused(10, 2, place));
    }
    let beginning = [&filled(LONGEST - 1, b"/", b"a")[..], b"~"].concat();
    let longer = (0..=255).map(|byte| [&beginning[..], &[byte]].concat());
    group.find_each(b"{}", longer);
}
