//! Arrays of strings, of numbers, of nested containers and of escapes.

use super::sheet::WORDS;
use super::{fill, ARRAY, OBJECT};
use crate::random::Random;

/// Strings of a few words, every tenth with escapes at its end.
pub fn strings(size: usize) -> String {
    let mut random = Random::new(2);
    let strings = std::iter::repeat_with(|| {
        let words: Vec<&str> = (0..3 + random.below(22)).map(|_| random.pick(&WORDS)).collect();
        let end = if random.one_in(10) { r#"\n\""# } else { "" };
        format!("\"{}{end}\"", words.join(" "))
    });
    fill(size, ARRAY, strings)
}

fn number(random: &mut Random) -> String {
    let sign = random.pick(&["", "-"]);
    match random.below(4) {
        0 => format!("{sign}{}", random.below(1_000_000)),
        1 => format!("{}.{:02}", random.below(1_000_000), random.below(100)),
        2 => format!("{sign}{}.{:09}", random.below(100), random.below(1_000_000_000)),
        _ => format!("{}.{}e-{}", 1 + random.below(8), random.below(100_000_000), 1 + random.below(39)),
    }
}

pub fn numbers(size: usize) -> String {
    let mut random = Random::new(3);
    fill(size, ARRAY, std::iter::repeat_with(|| number(&mut random)))
}

/// Thirty-one arrays around thirty-one objects, over and over.
pub fn nested(size: usize) -> String {
    let part = format!("{}{}1{}{}", "[".repeat(31), "{\"a\":".repeat(31), "}".repeat(31), "]".repeat(31));
    fill(size, ARRAY, std::iter::repeat(part))
}

/// Objects of one member inside each other, over and over, under numbered names.
pub fn nested_objects(size: usize) -> String {
    let part = |row: usize| format!(r#""r{row:05}":{{"a":{{"b":{{"c":{{"d":0,"e":1}}}}}}}}"#);
    fill(size, OBJECT, (0..).map(part))
}

pub fn escapes(size: usize) -> String {
    let mut random = Random::new(6);
    let strings = std::iter::repeat_with(|| {
        let pieces: String = (0..20).map(|_| random.pick(&["\\n", "\\\"", "\\u00e9", "\\\\", "ab"])).collect();
        format!("\"{pieces}\"")
    });
    fill(size, ARRAY, strings)
}
