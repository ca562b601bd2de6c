//! Ways to damage a text at a place by chance.

use crate::random::Random;

/// Bytes that mean something in a text or stand beside such bytes, so that damage is often nearly right.
const TELLING: &[u8] = b"\"\\/[]{}:,-+.eE0129 \t\n\rnulltruefalse\x00\x1f\x7f\x80\xff";

pub type Damage = fn(&mut Vec<u8>, &mut Random);

fn place(text: &[u8], random: &mut Random) -> usize {
    random.below(text.len() + 1)
}

fn slice(text: &[u8], random: &mut Random) -> std::ops::Range<usize> {
    let start = place(text, random);
    start..text.len().min(start + 1 + random.below(12) * random.below(2))
}

fn byte(random: &mut Random) -> u8 {
    if random.one_in(4) {
        random.byte()
    } else {
        random.pick_byte(TELLING)
    }
}

pub fn delete(text: &mut Vec<u8>, random: &mut Random) {
    let gone = slice(text, random);
    text.drain(gone);
}

pub fn insert(text: &mut Vec<u8>, random: &mut Random) {
    let at = place(text, random);
    text.insert(at, byte(random));
}

pub fn replace(text: &mut Vec<u8>, random: &mut Random) {
    let at = random.below(text.len());
    text[at] = byte(random);
}

pub fn truncate(text: &mut Vec<u8>, random: &mut Random) {
    let length = place(text, random);
    text.truncate(length);
}

/// A slice stands twice in a row: a member doubled so, comma included, repeats its name.
pub fn double(text: &mut Vec<u8>, random: &mut Random) {
    let doubled = slice(text, random);
    let copy = text[doubled.clone()].to_vec();
    text.splice(doubled.end..doubled.end, copy);
}
