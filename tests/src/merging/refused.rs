//! Targets and patches that are refused, and tables that are too short: the target goes first, then the patch, then the
//! output; the output stays, and each table is as the reader leaves it or as it was.

use super::compare::least;
use super::pairs::pair;
use crate::answer::Answer;
use crate::damage::{self, Damage};
use crate::group::{Group, Test};
use crate::random::Random;
use crate::reading::examples::REFUSED;
use crate::reading::tables::VERDICTS;

pub const TESTS: [Test; 5] = [
    ("pairs of texts of every verdict", every_pair),
    ("pairs of texts of every verdict with tables of every length", every_table),
    ("examples of 01 that are refused, as target and as patch", examples),
    ("generated pairs cut short at every place", cut),
    ("generated pairs with damage to one text or both", damaged),
];

/// Tables that are exact, one word short, longer and empty, in every mix; outputs that are empty, short and long.
fn every_pair(group: &mut Group) {
    for target in VERDICTS {
        for patch in VERDICTS {
            let choices = least([target, patch]).map(|words| [words, words.saturating_sub(1), words + 9, 0]);
            for target_words in choices[0] {
                for patch_words in choices[1] {
                    let lengths = |needed: usize| vec![0, needed.saturating_sub(1), needed, needed + 5];
                    group.merge_each([target, patch], [target_words, patch_words], lengths);
                }
            }
        }
    }
}

fn every_table(group: &mut Group) {
    for text in VERDICTS {
        for words in 0..=4 * text.len() + 20 {
            for other in [&b"{}"[..], br#"{"a":[2],"b":null}"#, b"1", b"[", b"x"] {
                let enough = 4 * other.len();
                group.merge_each([text, other], [words, enough], |needed| vec![0, needed, needed + 5]);
                group.merge_each([other, text], [enough, words], |needed| vec![0, needed, needed + 5]);
                group.merge_each([other, text], [enough - 1, words], |needed| vec![needed + 5]);
            }
        }
    }
}

fn examples(group: &mut Group) {
    for (text, number, place) in REFUSED {
        for length in [0, 1, 200] {
            for (other, _, _) in REFUSED {
                group.merge_refused([text, other], length, Answer::refused(number, 1, place));
            }
            for other in ["null", "{}", "[1,2]", r#"{"a":null}"#] {
                group.merge_refused([text, other.as_bytes()], length, Answer::refused(number, 1, place));
                group.merge_refused([other.as_bytes(), text], length, Answer::refused(number, 2, place));
            }
        }
    }
}

fn cut(group: &mut Group) {
    let mut random = Random::new(104);
    for round in 0..150 {
        let [target, patch] = pair(&mut random, 1 + round % 4).map(String::into_bytes);
        for place in 0..target.len() {
            let whole = if round % 2 == 0 { &patch } else { &patch[..patch.len() / 2] };
            group.merge_exactly(&target[..place], whole);
        }
        for place in 0..patch.len() {
            group.merge_each([&target, &patch[..place]], [4 * target.len(), 4 * place], |needed| vec![needed + 30]);
        }
    }
}

fn damaged(group: &mut Group) {
    let mut random = Random::new(105);
    let damages: [Damage; 4] = [damage::delete, damage::insert, damage::replace, damage::double];
    for round in 0..10_000 {
        let [mut target, mut patch] = pair(&mut random, 1 + round % 4).map(String::into_bytes);
        if round % 3 != 0 {
            damages[round % 4](&mut patch, &mut random);
        }
        if round % 3 != 1 {
            damages[round / 4 % 4](&mut target, &mut random);
        }
        group.merge(target, patch);
    }
}
