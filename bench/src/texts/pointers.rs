//! Pointers that are made for a text. Where one names a value, that is as late in the text as can be, so that all
//! siblings before it are passed.

use super::edits;

/// The last field of the last row.
pub fn last_cell(sheet: &str) -> String {
    format!("/r{:05}/note", edits::rows(sheet).end - 1)
}

/// The last element of an array that has no comma inside its elements.
pub fn last_element(array: &str) -> String {
    format!("/{}", array.matches(',').count())
}

/// The number inside the last element of `values::nested`.
pub fn last_nested(array: &str) -> String {
    last_element(array) + &"/0".repeat(31) + &"/a".repeat(31)
}

/// The innermost array inside the last element of `worst::deepest`.
pub fn last_deepest(array: &str) -> String {
    last_element(array) + &"/0".repeat(62)
}

/// The last name of an object whose values are numbers, however the text spells it.
pub fn last_name(object: &str) -> String {
    let names = edits::names(object);
    let name: String = serde_json::from_str(names.last().expect("a name")).expect("a string");
    format!("/{}", name.replace('~', "~0").replace('/', "~1"))
}

/// A name of six letters, where all have five.
pub fn no_name(_: &str) -> String {
    "/abcdef".into()
}

/// The first row, and a `~` without its digit.
pub fn malformed(_: &str) -> String {
    "/r00000/~".into()
}
