//! What a pointer names in a tree. 01 "Pointer".

use super::pointer;
use super::tree::{Inside, Tree};

/// Number and place of a refusal, whose input is 2.
pub struct Lost {
    pub number: u32,
    pub place: usize,
}

/// The whole pointer is judged (10) before any of its tokens is resolved (11).
pub fn find<'a>(root: &'a Tree, pointer: &[u8]) -> Result<&'a Tree, Lost> {
    let tokens = pointer::tokens(pointer).map_err(|place| Lost { number: 10, place })?;
    let mut value = root;
    for token in tokens {
        value = child(value, &token.units).ok_or(Lost { number: 11, place: token.slash })?;
    }
    Ok(value)
}

/// The value right inside this one that a token names. A scalar has nothing below it.
fn child<'a>(value: &'a Tree, token: &[u16]) -> Option<&'a Tree> {
    match &value.inside {
        Inside::Scalar(_) => None,
        Inside::Array(elements) => elements.get(index(token)?),
        Inside::Object(members) => members.get(token),
    }
}

/// The number that is written exactly so, in decimal and in fewest digits, unless it is greater than any array is long.
fn index(token: &[u16]) -> Option<usize> {
    let written = String::from_utf16(token).expect("a token is ASCII");
    let number: usize = written.parse().ok()?;
    (number.to_string() == written).then_some(number)
}
