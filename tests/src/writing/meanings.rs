//! Texts that mean the same get the same bytes, and texts that don't get others. Here the library is compared with itself.

use super::change::changed;
use super::compare::written;
use crate::group::{shown, Group, Test};
use crate::random::Random;
use crate::reference::{self, Meaning};
use crate::respell::respelled;
use crate::texts;

pub const TESTS: [Test; 3] = [
    ("pairs of texts that mean the same or not", pairs),
    ("generated texts, spelled anew", anew),
    ("generated texts, changed in one place and spelled anew", changes),
];

/// Texts of one meaning stand in one row.
const ROWS: [&[&str]; 20] = [
    &["0", "-0", "0.0", "0e5", "-0E-999", " 0 "],
    &["1", "1.0", "10e-1", "0.1e1", "1e0", "1E+00"],
    &["-1", "-1.0", "-0.01e2"],
    &["10", "1e1", "100e-1", "0.1e2"],
    &["1e-1", "0.1", "0.10", "10e-2"],
    &["11", "1.1e1", "110e-1"],
    &["null", "\nnull"],
    &["true", "true "],
    &["false", " false"],
    &["\"1\"", "\"\\u0031\""],
    &["\"\""],
    &["\"/\"", "\"\\/\"", "\"\\u002f\"", "\"\\u002F\""],
    &["\"\\n\"", "\"\\u000a\"", "\"\\u000A\""],
    &["\"\\\\n\"", "\"\\u005cn\""],
    &["[]", "[ ]"],
    &["{}", "{\n}"],
    &["[1,2]", "[1.0, 20e-1]"],
    &["[2,1]", "[ 2 ,1]"],
    &[r#"{"a":1,"b":2}"#, r#"{"b":2,"a":1}"#, r#"{ "\u0062" : 2.0, "\u0061" : 1 }"#],
    &[r#"{"a":2,"b":1}"#, r#"{"b":1,"a":2}"#],
];

fn pairs(group: &mut Group) {
    let texts = || ROWS.iter().enumerate().flat_map(|(row, texts)| texts.iter().map(move |text| (row, *text)));
    for (row, one) in texts() {
        for (other_row, other) in texts() {
            let is_equal = written(one.as_bytes()) == written(other.as_bytes());
            group.judge(is_equal == (row == other_row), || format!("{one} and {other}"));
        }
    }
}

/// The meaning of a generated text that is accepted.
fn meaning(random: &mut Random, values: usize) -> Meaning {
    reference::meaning(&texts::accepted(random, values))
}

fn compare(group: &mut Group, one: &Meaning, other: &Meaning, random: &mut Random) {
    let (first, second) = (respelled(one, random), respelled(other, random));
    let (first_bytes, second_bytes) = (written(first.as_bytes()), written(second.as_bytes()));
    let are_written = first_bytes.is_some() && second_bytes.is_some();
    group.accepted += usize::from(are_written);
    let fits = are_written && (first_bytes == second_bytes) == (one == other);
    group.judge(fits, || format!("{}\n  {}", shown(first.as_bytes()), shown(second.as_bytes())));
}

fn anew(group: &mut Group) {
    let mut random = Random::new(53);
    for round in 0..4000 {
        let meaning = meaning(&mut random, 1 + round % 40);
        compare(group, &meaning, &meaning, &mut random);
        group.write(respelled(&meaning, &mut random).as_bytes());
    }
}

fn changes(group: &mut Group) {
    let mut random = Random::new(54);
    for round in 0..6000 {
        let meaning = meaning(&mut random, 1 + round % 20);
        compare(group, &meaning, &changed(&meaning, &mut random), &mut random);
    }
}
