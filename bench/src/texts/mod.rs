//! The texts: of many kinds, within the house ceilings, the same in every run, as long as fits a size.

mod edits;
mod names;
mod pointers;
mod sheet;
mod values;
mod worst;

use crate::entry::LONGEST;
use crate::library;
use crate::padded::Padded;

pub struct Text {
    pub name: &'static str,
    pub padded: Padded,
    /// What is merged into it, or nothing where it isn't a target.
    pub patch: Padded,
    /// What is looked up in it, or the empty pointer where nothing is.
    pub pointer: String,
    pub is_accepted: bool,
}

impl Text {
    fn alone(name: &'static str, text: String, is_accepted: bool) -> Text {
        let patch = Padded::new(String::new());
        Text { name, padded: Padded::new(text), patch, pointer: String::new(), is_accepted }
    }

    /// How many bytes are read as texts.
    pub fn bytes(&self) -> usize {
        self.padded.len() + self.patch.len()
    }
}

/// A kind of text makes one of at most so many bytes.
type Kind = (&'static str, fn(usize) -> String);

const ACCEPTED: [Kind; 16] = [
    ("sheet", sheet::compact),
    ("pretty sheet", sheet::pretty),
    ("strings", values::strings),
    ("numbers", values::numbers),
    ("nested", values::nested),
    ("random names", names::random),
    ("sorted names", names::sorted),
    ("long common prefixes", names::long_prefixes),
    ("escapes", values::escapes),
    ("escaped names", names::escaped),
    ("names in reverse order", names::reversed),
    ("equally long names with a common prefix", names::short_prefixes),
    ("deepest nesting", worst::deepest),
    ("shortest values", worst::shortest),
    ("smallest objects", worst::smallest_objects),
    ("objects of sixteen members", worst::objects_of_sixteen),
];

const REFUSED: [Kind; 3] = [
    ("sheet with a wrong last byte", worst::wrong_last_byte),
    ("random names, the last one twice", worst::twin_at_end),
    ("random names, unfinished", worst::unfinished),
];

/// A text of each kind, made by a way to make one of at most so many bytes.
fn each(make: impl Fn(fn(usize) -> String) -> String) -> Vec<Text> {
    let text = |&(name, kind): &Kind, is_accepted| Text::alone(name, make(kind), is_accepted);
    let accepted = ACCEPTED.iter().map(|kind| text(kind, true));
    accepted.chain(REFUSED.iter().map(|kind| text(kind, false))).collect()
}

pub fn to_read(size: usize) -> Vec<Text> {
    each(|kind| kind(size))
}

/// Texts that have at most so many bytes, and as many at most when they are written.
pub fn to_write(size: usize) -> Vec<Text> {
    each(|kind| {
        let (mut room, mut text) = (size, kind(size));
        while length_written(&text) > size {
            room = room * size / length_written(&text);
            text = kind(room);
        }
        text
    })
}

/// The length of the canonical text, which an empty output is refused with. For a refused text it is a place in it.
fn length_written(text: &str) -> usize {
    library::write(text.as_bytes(), &mut vec![0; 4 * text.len()], &mut []).place as usize
}

/// A text that grows by six when it is written, and so is refused for the length of its result.
pub fn too_long_when_written() -> Vec<Text> {
    vec![Text::alone("delete characters, too long when written", worst::delete_characters(LONGEST), false)]
}

/// A kind of text, and how a pointer is made for it.
type Search = (&'static str, fn(usize) -> String, fn(&str) -> String);

const FOUND: [Search; 11] = [
    ("last cell of a sheet", sheet::compact, pointers::last_cell),
    ("last cell of a pretty sheet", sheet::pretty, pointers::last_cell),
    ("last of strings", values::strings, pointers::last_element),
    ("last of numbers", values::numbers, pointers::last_element),
    ("innermost of the last nested", values::nested, pointers::last_nested),
    ("last of random names", names::random, pointers::last_name),
    ("last of long common prefixes", names::long_prefixes, pointers::last_name),
    ("last of escaped names", names::escaped, pointers::last_name),
    ("last of equally long names with a common prefix", names::short_prefixes, pointers::last_name),
    ("innermost of the deepest nesting", worst::deepest, pointers::last_deepest),
    ("last of the shortest values", worst::shortest, pointers::last_element),
];

const NOT_FOUND: [Search; 3] = [
    ("none of random names", names::random, pointers::no_name),
    ("malformed pointer into a sheet", sheet::compact, pointers::malformed),
    ("sheet with a wrong last byte", worst::wrong_last_byte, pointers::last_cell),
];

/// Texts of at most so many bytes with a pointer each.
pub fn to_find(size: usize) -> Vec<Text> {
    let accepted = FOUND.iter().map(|search| searched(search, size, true));
    accepted.chain(NOT_FOUND.iter().map(|search| searched(search, size, false))).collect()
}

fn searched(&(name, kind, point): &Search, size: usize, is_accepted: bool) -> Text {
    let text = kind(size);
    Text { pointer: point(&text), ..Text::alone(name, text, is_accepted) }
}

/// A kind of target, and how a patch is made for it.
type Pair = (&'static str, fn(usize) -> String, fn(&str) -> String);

const MERGED: [Pair; 9] = [
    ("one row changed", sheet::compact, edits::one_row),
    ("half of the rows changed", sheet::compact, edits::half_of_the_rows),
    ("one row changed in a pretty sheet", sheet::pretty, edits::one_row),
    ("all rows removed", sheet::compact, edits::all_rows_removed),
    ("a sheet as its own patch", sheet::compact, str::to_string),
    ("nested objects, all changed", values::nested_objects, edits::nested_objects),
    ("random names, half of them changed", names::random, edits::half_of_the_names),
    ("random names, others added", names::random, edits::other_names),
    ("objects of sixteen members, replaced", worst::objects_of_sixteen, str::to_string),
];

const NOT_MERGED: [Pair; 1] =
    [("half of the rows changed, with a wrong last byte", sheet::compact, edits::wrong_last_byte)];

/// Targets and patches that have at most so many bytes each, and so has the result.
pub fn to_merge(size: usize) -> Vec<Text> {
    let accepted = MERGED.iter().map(|pair| merged(pair, size, true));
    accepted.chain(NOT_MERGED.iter().map(|pair| merged(pair, size, false))).collect()
}

fn merged(&(name, kind, edit): &Pair, size: usize, is_accepted: bool) -> Text {
    let mut room = size;
    loop {
        let target = kind(room);
        let patch = edit(&target);
        let longest = patch.len().max(length_merged(&target, &patch));
        if longest <= size {
            return Text { patch: Padded::new(patch), ..Text::alone(name, target, is_accepted) };
        }
        room = room * size / longest;
    }
}

/// The length of the result, which an empty output is refused with. For a refused pair it is a place in a text.
fn length_merged(target: &str, patch: &str) -> usize {
    let texts = [target.as_bytes(), patch.as_bytes()];
    let [mut table, mut patch_table] = texts.map(|text| vec![0; 4 * text.len()]);
    library::merge(texts, [&mut table, &mut patch_table], &mut []).place as usize
}

/// The items that fit, parted by a separator, between what opens and what closes.
fn fill(size: usize, [open, separator, close]: [&str; 3], items: impl Iterator<Item = String>) -> String {
    let mut text = String::from(open);
    for item in items {
        let between = if text.len() > open.len() { separator } else { "" };
        if text.len() + between.len() + item.len() + close.len() > size {
            break;
        }
        text.push_str(between);
        text.push_str(&item);
    }
    text + close
}

const ARRAY: [&str; 3] = ["[", ",", "]"];
const OBJECT: [&str; 3] = ["{", ",", "}"];
