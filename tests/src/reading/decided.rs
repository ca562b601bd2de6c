//! Places that 01 leaves open, as docs/DECISIONS.md reads them.

use crate::answer::Answer;
use crate::group::{Group, Test};

pub const TESTS: [Test; 1] = [("places that were decided", decided)];

/// Text, number and place.
pub const REFUSED: [(&[u8], u32, usize); 33] = [
    (b" \t\n\r", 3, 4),
    (b"1e9999", 7, 5),
    (b"1000e997", 7, 7),
    (b"1e-", 3, 3),
    (b"0e0000", 7, 5),
    (b"-01", 4, 2),
    (b"000000000000000000000", 4, 1),
    (b"1234567890123456789", 6, 18),
    (b"-1234567890123456789", 6, 19),
    (b"0.123456789012345678", 6, 19),
    (b"123456789012345678.5", 6, 18),
    (b"12345678901234567.", 3, 18),
    (b"100000000000000000e983", 7, 21),
    (b"1.e5", 4, 2),
    (b"1.5e", 3, 4),
    (br#"{"a":1,"a"#, 3, 9),
    (b"{\"a\":1,\"a\x00", 4, 9),
    (br#"{"a":1,"a"x"#, 8, 9),
    (br#"{"a":1,"a""#, 8, 9),
    (br#"{"":1,"":2}"#, 8, 7),
    (br#"{"a":{"b":1,"b":2},"a":3}"#, 8, 14),
    (br#"{"a":{"b":1},"a":{"b":1,"b":2}}"#, 8, 15),
    (br#"{"a":1,"a":[}"#, 8, 9),
    (br#"{"a":[1}"#, 4, 7),
    (br#"{"a" 1}"#, 4, 5),
    (br#"{"a":1,}"#, 4, 7),
    (b"[1 2]", 4, 3),
    (b"\x0c1", 4, 0),
    (b"\"\x1f", 4, 1),
    (br#""\v"#, 4, 2),
    (br#""\u12g4""#, 4, 5),
    (br#""\u12"#, 3, 5),
    (b"nul", 3, 3),
];

/// Text and number of records.
const READ: [(&[u8], usize); 16] = [
    (b"1", 1),
    (b"1.5000e-998", 1),
    (b"1.000e999", 1),
    (b"1000e-999", 1),
    (b"100000000000000000e982", 1),
    (b"0e999", 1),
    (b"-0.0e-999", 1),
    (b"123456789012345678e9", 1),
    (b"0.12345678901234567E+001", 1),
    (br#"{"a":{"a":1},"b":{"a":1}}"#, 5),
    (br#"{"a":1,"A":2,"":3," ":4}"#, 5),
    (br#"{"\ud800":1,"\udc00":2}"#, 3),
    (br#"[{"a":1},{"a":1}]"#, 5),
    (b"\"\x7f\"", 1),
    (b" [ ] ", 1),
    (b"\r\n{ \"a\" : 1 }\t", 2),
];

fn decided(group: &mut Group) {
    for (text, number, place) in REFUSED {
        group.read_known(text, Answer::refused(number, 1, place));
    }
    for (text, count) in READ {
        group.read_known(text, Answer::accepted(count));
    }
    let name_due_at_full_depth = [&[b'['; 63][..], b"{{"].concat();
    group.read_known(&name_due_at_full_depth, Answer::refused(4, 1, 64));
}
