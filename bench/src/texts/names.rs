//! Single objects of very many members, in orders and spellings of names that a check for repeated ones may find hard.

use super::{fill, OBJECT};
use crate::random::Random;
use std::collections::HashSet;

const LETTERS: usize = 26;
const PREFIX: &str =
    "department/of/finance/cost-centre/region/north/office/branch/ledger/account/subaccount/line/item/position/";

/// Different numbers below a limit, by chance and without end.
fn different(seed: u64, limit: usize) -> impl Iterator<Item = usize> {
    let mut random = Random::new(seed);
    let mut met = HashSet::new();
    std::iter::repeat_with(move || random.below(limit)).filter(move |&number| met.insert(number))
}

/// Names of five letters, as many as an object of the size holds.
fn five_letters(size: usize) -> Vec<String> {
    let letter = |number: usize, place: u32| char::from(b'a' + (number / LETTERS.pow(place) % LETTERS) as u8);
    let name = |number: usize| (0..5).rev().map(|place| letter(number, place)).collect();
    let member_bytes = r#""abcde":1,"#.len();
    different(4, LETTERS.pow(5)).map(name).take(size / member_bytes).collect()
}

fn object(size: usize, names: impl Iterator<Item = String>) -> String {
    let mut random = Random::new(7);
    fill(size, OBJECT, names.map(|name| format!("\"{name}\":{}", random.below(10))))
}

pub fn random(size: usize) -> String {
    object(size, five_letters(size).into_iter())
}

pub fn sorted(size: usize) -> String {
    let mut names = five_letters(size);
    names.sort();
    object(size, names.into_iter())
}

pub fn reversed(size: usize) -> String {
    let mut names = five_letters(size);
    names.sort();
    object(size, names.into_iter().rev())
}

pub fn escaped(size: usize) -> String {
    let escape = |name: String| name.bytes().map(|byte| format!("\\u{byte:04x}")).collect();
    object(size, five_letters(size).into_iter().map(escape))
}

pub fn long_prefixes(size: usize) -> String {
    object(size, different(5, 1_000_000).map(|number| format!("{PREFIX}{number:06}")))
}

/// Five letters, the first two always the same and the others out of 48, so that a MiB is just filled.
pub fn short_prefixes(size: usize) -> String {
    let letter = |number: usize| char::from(b'A' + number as u8);
    let letters = |number: usize| [number / 48 / 48, number / 48 % 48, number % 48].map(letter);
    let plain = |letter: char| if letter == '\\' { '~' } else { letter };
    let name = |number: usize| letters(number).map(plain).iter().collect::<String>();
    let mut numbers: Vec<usize> = (0..48 * 48 * 48).collect();
    Random::new(8).shuffle(&mut numbers);
    object(size, numbers.into_iter().map(|number| format!("zz{}", name(number))))
}
