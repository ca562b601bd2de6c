//! Outputs of every length, and null pointers.

use crate::answer::Answer;
use crate::group::{Group, Test};
use crate::library;
use crate::random::Random;
use crate::texts;

pub const TESTS: [Test; 3] = [
    ("outputs of every length", every_length),
    ("outputs of lengths by chance", by_chance),
    ("no memory for the writer", nothing),
];

const SMALL: [&str; 14] = [
    "1",
    "null",
    "-0.0e5",
    "100",
    "-12.50e+10",
    "1.5e-998",
    "[]",
    " { } ",
    r#""""#,
    r#""\n\u0041/""#,
    "[1, [true, {}], \"\x7f\"]",
    r#"{"b":1.50,"a":"\n"}"#,
    r#"{"a":1,"B":2,"aa":3}"#,
    r#"{"c":{"b":[1,{"z":0,"y":0}],"a":"\u00E9"},"":{}}"#,
];

fn every_length(group: &mut Group) {
    for text in SMALL {
        for words in [4 * text.len(), 4 * text.len() + 1] {
            group.write_each(text.as_bytes(), words, |needed| (0..=needed + 70).collect());
        }
    }
}

fn by_chance(group: &mut Group) {
    let mut random = Random::new(40);
    for _ in 0..1500 {
        let text = texts::text(&mut random, 20);
        let share = random.below(100);
        let lengths = |needed: usize| vec![0, 1, needed * share / 100, needed + 1, needed + 1000];
        group.write_each(&text, 4 * text.len(), lengths);
    }
}

/// Nothing at all, and a text without an output, as null pointers and as slices.
fn nothing(group: &mut Group) {
    let answer = library::write_nothing();
    group.judge(answer == Answer::refused(3, 1, 0), || format!("nothing: {answer:?}"));
    group.write_each(b"", 0, |_| vec![0]);
    for (text, needed) in [("1", 1), ("100", 3), (" \"\x7f\" ", 8)] {
        let answer = library::write_nowhere(text.as_bytes(), &mut vec![0; 4 * text.len()]);
        group.judge(answer == Answer::refused(12, 3, needed), || format!("{text}: {answer:?}"));
    }
}
