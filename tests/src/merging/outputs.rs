//! Outputs of every length, and the length that is always enough.

use super::compare::least;
use super::pairs::pair;
use crate::group::{Group, Test};
use crate::random::Random;

pub const TESTS: [Test; 3] = [
    ("outputs of every length, by the merge", every_length),
    ("outputs of lengths by chance, by the merge", by_chance),
    ("outputs of the length that is always enough", enough),
];

const SMALL: [[&str; 2]; 14] = [
    ["1", "2"],
    ["{}", "null"],
    ["[1]", "100"],
    ["0", " { } "],
    [r#"{"a":1}"#, r#"{"a":null}"#],
    [r#"{"a":1}"#, "[1, [true, {}], \"\x7f\"]"],
    [r#"{"b":1.50}"#, r#"{"a":"\n"}"#],
    [r#"{"a":1,"B":2}"#, r#"{"aa":3}"#],
    ["[1,2]", r#"{"a":"b","c":null}"#],
    [r#"{"e":null}"#, r#"{"a":1}"#],
    [r#"{"a":{"b":{"c":1,"d":2}}}"#, r#"{"a":{"b":{"c":null}}}"#],
    [r#"{"c":{"b":[1,{"z":0,"y":0}],"a":"\u00E9"},"":{}}"#, r#"{"c":{"b":-0.0e5,"d":{"x":null}},"~":{}}"#],
    ["{\"\x7f\":\"\x7f\"}", "{\"\\u0080\":[\"\x7f\"],\"\x7f\":{\"\x7f\":null}}"],
    [r#"{"z":1,"y":{"k":[]},"x":-12.50e+10}"#, r#"{"y":{"j":1.5e-998},"x":null}"#],
];

fn every_length(group: &mut Group) {
    for texts in SMALL.map(|pair| pair.map(str::as_bytes)) {
        let exact = least(texts);
        for words in [exact, exact.map(|words| words + 1)] {
            group.merge_each(texts, words, |needed| (0..=needed + 70).collect());
        }
    }
}

fn by_chance(group: &mut Group) {
    let mut random = Random::new(103);
    for round in 0..3000 {
        let pair = pair(&mut random, 1 + round % 4);
        let texts = pair.each_ref().map(|text| text.as_bytes());
        let share = random.below(100);
        let lengths = |needed: usize| vec![0, 1, needed * share / 100, needed + 1, needed + 1000];
        group.merge_each(texts, least(texts), lengths);
    }
}

/// Six times both texts together: characters that grow by six in names and values of both.
fn enough(group: &mut Group) {
    for length in 0..60 {
        let text = |name: &str| format!("{{\"{name}{0}\":\"{0}\"}}", "\x7f".repeat(length)).into_bytes();
        let (target, patch) = (text("a"), text("b"));
        let room = 6 * (target.len() + patch.len());
        group.merge_each([&target, &patch], least([&target, &patch]), |needed| {
            assert!(needed <= room, "{needed} bytes are more than enough");
            vec![room, needed, needed - 1]
        });
    }
}
