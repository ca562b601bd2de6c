//! Strings and names: every unit in every spelling, and spellings at every place of runs of every length.

use crate::group::{Group, Test};
use crate::random::Random;
use crate::spell;

pub const TESTS: [Test; 4] = [
    ("every unit in either case of hex digits, as a value and as a name", every_unit),
    ("every spelling of every unit below 100 (hex), alone and beside others", every_spelling),
    ("spellings at every place of runs of every length", runs),
    ("strings of units by chance", by_chance),
];

const LONGEST: usize = 34;

fn every_unit(group: &mut Group) {
    for unit in 0..=0xFFFF {
        let (lower, upper) = (spell::lower_hex(unit), spell::upper_hex(unit));
        let text = format!("{{\"{upper}\":\"{lower}{upper}\"}}");
        group.write_each(text.as_bytes(), 4 * text.len(), |needed| vec![needed]);
    }
}

fn every_spelling(group: &mut Group) {
    for unit in 0..=0xFF {
        for one in spell::spellings(unit) {
            group.write(format!("\"{one}\"").as_bytes());
            group.write(format!("[\"a{one}{one}z\"]").as_bytes());
            for other in ["\\u000A", "\\\"", "\\\\", "\x7f", "u0041"] {
                group.write(format!("{{\"{one}{other}\":\"{other}{one}\"}}").as_bytes());
            }
        }
    }
}

fn runs(group: &mut Group) {
    let telling = ["\\n", "\\\"", "\\\\", "\\/", "\\u0041", "\\u00e9", "\\uABCD", "\x7f", "~", " "];
    for length in 0..=LONGEST {
        for place in 0..=length {
            for piece in telling {
                let run = format!("{}{piece}{}", "a".repeat(place), "z".repeat(length - place));
                group.write_each(format!("[\"{run}\"]").as_bytes(), 4 * (run.len() + 4), |needed| vec![needed]);
            }
        }
    }
}

fn by_chance(group: &mut Group) {
    let mut random = Random::new(44);
    for round in 0..2000 {
        let units: Vec<u16> = (0..round % 80).map(|_| random.below(0x1_0000) as u16 >> random.below(16)).collect();
        let (one, two) = (spell::quoted(&units, &mut random), spell::quoted_in_hex(&units));
        group.write(format!("{{{one}:{two}}}").as_bytes());
    }
}
