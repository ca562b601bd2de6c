//! Texts that are refused, and tables that are too short: the output stays, and the table is as the reader leaves it.

use crate::damage::{self, Damage};
use crate::group::{Group, Test};
use crate::random::Random;
use crate::reading::tables::VERDICTS;
use crate::texts;

pub const TESTS: [Test; 3] = [
    ("texts of every verdict with tables of every length, by the writer", every_table),
    ("generated texts cut short at every place, by the writer", cut),
    ("generated texts with damage, by the writer", damaged),
];

fn every_table(group: &mut Group) {
    for text in VERDICTS {
        for words in 0..=4 * text.len() + 20 {
            group.write_each(text, words, |needed| vec![0, needed, needed + 5]);
        }
    }
}

fn cut(group: &mut Group) {
    let mut random = Random::new(41);
    for _ in 0..80 {
        let text = texts::text(&mut random, 8);
        for place in 0..text.len() {
            group.write_each(&text[..place], 4 * place, |needed| vec![needed, needed + 30]);
        }
    }
}

fn damaged(group: &mut Group) {
    let mut random = Random::new(42);
    let damages: [Damage; 4] = [damage::delete, damage::insert, damage::replace, damage::double];
    for round in 0..8000 {
        let mut text = texts::text(&mut random, 1 + round % 20);
        damages[round % 4](&mut text, &mut random);
        group.write(&text);
    }
}
