//! A sheet: one object whose members are the rows, each an object of six fields.

use super::{fill, OBJECT};
use crate::random::Random;

pub const WORDS: [&str; 14] = [
    "Rent",
    "Wages",
    "Travel",
    "Paper",
    "Heating",
    "Insurance",
    "Audit",
    "Training",
    "Cleaning",
    "Postage",
    "Lease",
    "Repairs",
    "Licences",
    "Fees",
];

fn note(random: &mut Random, row: usize) -> String {
    if random.below(10) < 7 {
        "null".into()
    } else {
        format!(r#""see \"{row}\" on p. {}""#, row % 40)
    }
}

/// The fields of a row with their values as written.
fn fields(random: &mut Random, row: usize) -> [(&'static str, String); 6] {
    let (word, month) = (random.pick(&WORDS), random.pick(&["March", "April", "May", "June"]));
    let sign = random.pick(&["", "-"]);
    [
        ("label", format!("\"{word}, {month} {}\"", 2000 + row % 30)),
        ("amount", format!("{sign}{}.{:02}", random.below(100_000), random.below(100))),
        ("tax", random.pick(&["0.19", "0.07", "0"]).into()),
        ("account", (1000 + random.below(9000)).to_string()),
        ("paid", random.pick(&["true", "false"]).into()),
        ("note", note(random, row)),
    ]
}

/// The rows without end: between the fields, and before and behind the first and the last, stand the given pieces.
fn rows(
    before: &'static str,
    between: &'static str,
    colon: &'static str,
    behind: &'static str,
) -> impl Iterator<Item = String> {
    let mut random = Random::new(1);
    (0..).map(move |row| {
        let fields = fields(&mut random, row).map(|(name, value)| format!("\"{name}\"{colon}{value}"));
        format!("\"r{row:05}\"{colon}{{{before}{}{behind}}}", fields.join(between))
    })
}

pub fn compact(size: usize) -> String {
    fill(size, OBJECT, rows("", ",", ":", ""))
}

pub fn pretty(size: usize) -> String {
    fill(size, ["{\n  ", ",\n  ", "\n}"], rows("\n    ", ",\n    ", ": ", "\n  "))
}
