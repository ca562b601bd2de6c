//! Texts that are refused, and tables that are too short: their refusals go before the pointer's, and the table is as
//! the reader leaves it.

use crate::answer::Answer;
use crate::damage::{self, Damage};
use crate::group::{Group, Test};
use crate::random::Random;
use crate::reading::decided::REFUSED;
use crate::reading::tables::VERDICTS;
use crate::texts;

pub const TESTS: [Test; 5] = [
    ("texts of every verdict with tables of every length, by the look-up", every_table),
    ("places of refusals that were decided, by the look-up", decided),
    ("generated texts cut short at every place, by the look-up", cut),
    ("generated texts with damage, by the look-up", damaged),
    ("texts around the longest, by the look-up", longest),
];

/// Pointers that name the whole, something, or nothing, and pointers that are malformed.
const POINTERS: [&[u8]; 10] = [b"", b"/", b"/0", b"/a/1", b"/none", b"none", b"/~", b"/~2/", b"/\x80", b"/1\xff"];

fn every_table(group: &mut Group) {
    let too_long = [b'/'; 65_537];
    for text in VERDICTS {
        for words in 0..=4 * text.len() + 20 {
            group.find_with(text, words, POINTERS);
        }
        for words in [0, 4 * text.len(), 4 * text.len() + 1] {
            group.find_with(text, words, [too_long]);
        }
    }
}

fn decided(group: &mut Group) {
    for (text, number, place) in REFUSED {
        for pointer in POINTERS {
            group.find_refused(text, pointer, Answer::refused(number, 1, place));
        }
    }
}

fn cut(group: &mut Group) {
    let mut random = Random::new(72);
    for _ in 0..60 {
        let text = texts::text(&mut random, 8);
        for place in 0..text.len() {
            group.find_with(&text[..place], 4 * place, POINTERS);
        }
    }
}

fn damaged(group: &mut Group) {
    let mut random = Random::new(73);
    let damages: [Damage; 4] = [damage::delete, damage::insert, damage::replace, damage::double];
    for round in 0..4000 {
        let mut text = texts::text(&mut random, 1 + round % 20);
        damages[round % 4](&mut text, &mut random);
        group.find_each(&text, POINTERS);
    }
}

/// Over the ceiling of texts (1), at it with a short table (2), and at it with a fault at the end.
fn longest(group: &mut Group) {
    const LONGEST: usize = 1_048_576;
    let pointers: [&[u8]; 4] = [b"", b"/0", b"/x", b"~"];
    for length in [LONGEST, LONGEST + 1] {
        let letters = format!("[\"{}\"]", "a".repeat(length - 4));
        let wrong = format!("[\"{}\"}}", "a".repeat(length - 4));
        group.find_with(letters.as_bytes(), 4 * LONGEST, pointers);
        group.find_with(letters.as_bytes(), 4 * LONGEST - 1, pointers);
        group.find_with(wrong.as_bytes(), 4 * LONGEST, pointers);
        group.find_with(letters.as_bytes(), 0, pointers);
    }
}
