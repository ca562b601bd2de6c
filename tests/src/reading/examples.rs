//! 01's own examples on reading: "Examples on each edge", "Consequences" and the "Whole case".

use crate::answer::Answer;
use crate::group::{Group, Test};
use crate::library;

pub const TESTS: [Test; 2] = [("examples of 01 on each edge", each_edge), ("whole case of 01", whole_case)];

/// Text, number and place.
pub const REFUSED: [(&[u8], u32, usize); 18] = [
    (b"", 3, 0),
    (b"-", 3, 1),
    (b"01", 4, 1),
    (b"[1,]", 4, 3),
    (b"trux", 4, 3),
    (b"1 2", 4, 2),
    (br#"{"a":1,"\u0061":2}"#, 8, 14),
    (b"1.5e-999", 7, 7),
    (b"10e999", 7, 5),
    (b"123456789012345678.", 6, 18),
    (&[b'['; 64], 3, 64),
    (&[b'['; 65], 5, 64),
    (b"\"\x80", 9, 1),
    (b"1e1000", 7, 5),
    (b"\xef\xbb\xbf1", 4, 0),
    (b"[\x80]", 4, 1),
    (b"\"\\\x80", 4, 2),
    (b"\"\\u00\x80", 4, 5),
];

/// Text and number of records.
const READ: [(&[u8], usize); 14] = [
    (b"1.5e-998", 1),
    (b"0e999", 1),
    (b"123456789012345678", 1),
    (br#"{"b":1.50,"a":"\n"}"#, 3),
    (b"100", 1),
    (br#"{"a":1,"B":2,"aa":3}"#, 4),
    (br#"{"foo":["bar","baz"],"":0}"#, 5),
    (b"[1,2]", 3),
    (br#"{"a":"b","c":null}"#, 3),
    (b"{}", 1),
    (br#"{"a":{"bb":{"ccc":null}}}"#, 4),
    (br#"{"e":null}"#, 2),
    (br#"{"a":1}"#, 2),
    (b"-0", 1),
];

fn each_edge(group: &mut Group) {
    for (text, number, place) in REFUSED {
        group.read_known(text, Answer::refused(number, 1, place));
    }
    for (text, count) in READ {
        group.read_known(text, Answer::accepted(count));
    }
}

fn whole_case(group: &mut Group) {
    const NONE: u32 = 4_294_967_295;
    let records = [0, 14, NONE, 4, 5, 13, 1, 4, 6, 7, NONE, 3, 8, 12, NONE, 4];
    let mut table = [7; 56];
    let answer = library::read(br#"{"a":[1,true]}"#, &mut table);
    group.accepted += usize::from(answer.number == 0);
    group.judge(answer == Answer::accepted(4), || format!("{answer:?}"));
    group.judge(table[..16] == records, || format!("{:?}", &table[..16]));
    group.judge(table[16..] == [7; 40], || format!("{:?}", &table[16..]));
}
