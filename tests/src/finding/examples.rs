//! 01's own examples on looking up, its whole case, and RFC 6901, section 5.

use crate::answer::Answer;
use crate::group::{Group, Test};
use crate::part::Part;
use crate::reading::examples::REFUSED;
use crate::{library, reference};

pub const TESTS: [Test; 4] = [
    ("examples of 01 that look up", each_edge),
    ("examples of 01 that are refused, by the look-up", refused),
    ("whole case of 01, by the look-up", whole_case),
    ("examples of RFC 6901", rfc),
];

const FOO: &[u8] = br#"{"foo":["bar","baz"],"":0}"#;

fn each_edge(group: &mut Group) {
    group.find_known(FOO, b"/foo/0", 2, b"\"bar\"");
    group.find_known(FOO, b"/", 4, b"0");
    group.find_known(FOO, b"", 0, FOO);
    for (pointer, number, place) in [("/foo/01", 11, 4), ("/~2", 10, 2), ("foo", 10, 0)] {
        group.find_refused(FOO, pointer.as_bytes(), Answer::refused(number, 2, place));
    }
    group.find_known(br#"{"~1":1,"/":2}"#, b"/~01", 1, b"1");
}

/// Whatever the pointer is, the text is refused first.
fn refused(group: &mut Group) {
    for (text, number, place) in REFUSED {
        for pointer in ["", "/", "/a", "/0", "a", "/~", "/~2", "/\u{80}"] {
            group.find_refused(text, pointer.as_bytes(), Answer::refused(number, 1, place));
        }
    }
}

/// Answers, parts and every word, with no word of the reference: found, nothing there, and malformed.
fn whole_case(group: &mut Group) {
    const NONE: u32 = 4_294_967_295;
    let records = [0, 14, NONE, 4, 5, 13, 1, 4, 6, 7, NONE, 3, 8, 12, NONE, 4];
    let cases: [(&[u8], Answer, Part); 6] = [
        (b"", Answer::accepted(0), Part { start: 0, end: 14 }),
        (b"/a", Answer::accepted(1), Part { start: 5, end: 13 }),
        (b"/a/0", Answer::accepted(2), Part { start: 6, end: 7 }),
        (b"/a/1", Answer::accepted(3), Part { start: 8, end: 12 }),
        (b"/a/2", Answer::refused(11, 2, 2), Part::EMPTY),
        (b"/b/~", Answer::refused(10, 2, 4), Part::EMPTY),
    ];
    for (pointer, known, known_part) in cases {
        let (mut table, mut table_of_part) = ([7; 56], [7; 56]);
        let answer = library::find(br#"{"a":[1,true]}"#, &mut table, pointer);
        let part = library::part(br#"{"a":[1,true]}"#, &mut table_of_part, pointer);
        group.judge(answer == known && part == known_part, || format!("{answer:?} {part:?}"));
        for table in [table, table_of_part] {
            group.judge(table[..16] == records, || format!("{:?}", &table[..16]));
            group.judge(table[16..] == [7; 40], || format!("{:?}", &table[16..]));
        }
    }
}

const DOCUMENT: &str = r#"{
   "foo": ["bar", "baz"],
   "": 0,
   "a/b": 1,
   "c%d": 2,
   "e^f": 3,
   "g|h": 4,
   "i\\j": 5,
   "k\"l": 6,
   " ": 7,
   "m~n": 8
}"#;

/// Pointer, record and value.
const NAMED: [(&str, usize, &str); 12] = [
    ("", 0, DOCUMENT),
    ("/foo", 1, r#"["bar", "baz"]"#),
    ("/foo/0", 2, r#""bar""#),
    ("/", 4, "0"),
    ("/a~1b", 5, "1"),
    ("/c%d", 6, "2"),
    ("/e^f", 7, "3"),
    ("/g|h", 8, "4"),
    (r"/i\j", 9, "5"),
    (r#"/k"l"#, 10, "6"),
    ("/ ", 11, "7"),
    ("/m~0n", 12, "8"),
];

/// The part, and what the library writes canonically for the part.
fn rfc(group: &mut Group) {
    for (pointer, record, value) in NAMED {
        group.find_known(DOCUMENT.as_bytes(), pointer.as_bytes(), record, value.as_bytes());
        let (mut table, mut out) = (vec![0; 4 * DOCUMENT.len()], vec![0; DOCUMENT.len()]);
        let part = library::part(DOCUMENT.as_bytes(), &mut table, pointer.as_bytes());
        let found = DOCUMENT.as_bytes().get(part.start..part.end).unwrap_or(b"");
        let written = library::write(found, &mut table, &mut out).count as usize;
        let canonical = reference::canonical(value.as_bytes());
        group.judge(out[..written] == canonical, || format!("{pointer}: {}", out[..written].escape_ascii()));
    }
}
