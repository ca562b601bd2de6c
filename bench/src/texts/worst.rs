//! Texts that are made to be slow: as many containers, values or objects as fit, and faults at the very end.

use super::{fill, names, sheet, ARRAY};
use crate::random::Random;

/// Sixty-three arrays inside the outer one, over and over.
pub fn deepest(size: usize) -> String {
    fill(size, ARRAY, std::iter::repeat("[".repeat(63) + &"]".repeat(63)))
}

pub fn shortest(size: usize) -> String {
    fill(size, ARRAY, std::iter::repeat("1".into()))
}

pub fn smallest_objects(size: usize) -> String {
    fill(size, ARRAY, std::iter::repeat(r#"{"b":1,"a":1}"#.into()))
}

/// Objects whose sixteen short names stand in an order by chance.
pub fn objects_of_sixteen(size: usize) -> String {
    let mut random = Random::new(9);
    let mut letters = *b"abcdefghijklmnop";
    let objects = std::iter::repeat_with(|| {
        random.shuffle(&mut letters);
        let members = letters.map(|letter| format!("\"{}\":1", char::from(letter)));
        format!("{{{}}}", members.join(","))
    });
    fill(size, ARRAY, objects)
}

/// Strings of the one character that is plain and is written as an escape.
pub fn delete_characters(size: usize) -> String {
    fill(size, ARRAY, std::iter::repeat(format!("\"{}\"", "\x7f".repeat(40))))
}

fn with_end(mut text: String, gone: usize, end: &str) -> String {
    text.truncate(text.len() - gone);
    text + end
}

pub fn wrong_last_byte(size: usize) -> String {
    with_end(sheet::compact(size), 1, "]")
}

/// The second name stands again as the last.
pub fn twin_at_end(size: usize) -> String {
    let text = names::random(size);
    let member_bytes = r#""abcde":1,"#.len();
    let second = text[1 + member_bytes..2 * member_bytes].to_string();
    with_end(text, member_bytes, &format!("{second}}}"))
}

pub fn unfinished(size: usize) -> String {
    with_end(names::random(size), 1, "")
}
