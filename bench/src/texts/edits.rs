//! Edits: patches that are made for a target.

use super::{fill, OBJECT};
use crate::random::Random;

/// The numbers of a sheet's rows.
pub fn rows(sheet: &str) -> std::ops::Range<usize> {
    0..sheet.matches("\"label\"").count()
}

/// A patch of these members, of any length.
fn patch(members: impl Iterator<Item = String>) -> String {
    fill(usize::MAX, OBJECT, members)
}

pub fn one_row(sheet: &str) -> String {
    let row = rows(sheet).end / 2;
    format!(r#"{{"r{row:05}":{{"amount":-120.50,"note":"paid twice","tax":null}}}}"#)
}

/// Every other row, in one cell or two.
pub fn half_of_the_rows(sheet: &str) -> String {
    let mut random = Random::new(10);
    patch(rows(sheet).step_by(2).map(|row| {
        let amount = format!("{}.{:02}", random.below(100_000), random.below(100));
        let second = random.pick(&["", r#","note":null"#, r#","paid":true"#]);
        format!(r#""r{row:05}":{{"amount":{amount}{second}}}"#)
    }))
}

pub fn all_rows_removed(sheet: &str) -> String {
    patch(rows(sheet).map(|row| format!(r#""r{row:05}":null"#)))
}

pub fn wrong_last_byte(sheet: &str) -> String {
    let mut patch = half_of_the_rows(sheet);
    patch.pop();
    patch + "]"
}

/// The same paths as the target has: a member removed at the end of each, and one added.
pub fn nested_objects(target: &str) -> String {
    target.replace(r#""e":1"#, r#""e":null,"f":{"g":null}"#)
}

/// The names of an object whose values are numbers.
pub fn names(object: &str) -> Vec<&str> {
    object.trim_matches(['{', '}']).split(',').filter_map(|member| Some(member.split_once(':')?.0)).collect()
}

/// Half of the names in another order, each removed or set.
pub fn half_of_the_names(object: &str) -> String {
    let mut random = Random::new(11);
    let mut names = names(object);
    random.shuffle(&mut names);
    names.truncate(names.len() / 2);
    patch(names.into_iter().map(|name| format!("{name}:{}", random.pick(&["null", "10", "[]"]))))
}

/// As many names again, none of which the target has.
pub fn other_names(object: &str) -> String {
    let mut names = names(object);
    Random::new(12).shuffle(&mut names);
    patch(names.into_iter().map(|name| format!("{}:1", name.to_uppercase())))
}
