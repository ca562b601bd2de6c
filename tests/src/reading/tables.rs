//! Tables that are exact, too short and longer than needed, for texts of every verdict; and null pointers.

use crate::answer::Answer;
use crate::group::{Group, Test};
use crate::random::Random;
use crate::{library, texts};

pub const TESTS: [Test; 3] = [
    ("tables of every length", every_length),
    ("tables around the exact length", around_exact),
    ("no memory", nothing),
];

/// One text or two of each verdict from 3 to 9 and of acceptance.
pub const VERDICTS: [&[u8]; 12] = [
    b"",
    b"1",
    br#"{"a":[1,true]}"#,
    b"[1,",
    b"[1,]",
    b"\x80",
    &[b'['; 65],
    b"1234567890123456789",
    b"[1e1000]",
    br#"{"a":1,"a":2}"#,
    b"[\"\x80\"]",
    b"[[],{},\"\",0]",
];

fn every_length(group: &mut Group) {
    for text in VERDICTS {
        for words in 0..=4 * text.len() + 20 {
            group.read_into(text, words);
        }
    }
}

fn around_exact(group: &mut Group) {
    let mut random = Random::new(3);
    for _ in 0..2000 {
        let text = texts::text(&mut random, 20);
        let exact = 4 * text.len();
        for words in [exact, exact - 1, exact + 1, exact + 1000, exact / 2, 0] {
            group.read_into(&text, words);
        }
    }
}

/// The empty text with an empty table, as null pointers and as slices.
fn nothing(group: &mut Group) {
    let answer = library::read_nothing();
    group.judge(answer == Answer::refused(3, 1, 0), || format!("nothing: {answer:?}"));
    group.read_into(b"", 0);
}
