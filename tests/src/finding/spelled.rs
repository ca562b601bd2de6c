//! Names and tokens of every length: equal, prefixes of each other, and different in one place, in any spelling.

use crate::group::{Group, Test};
use crate::members::numbered;
use crate::point::token;
use crate::random::Random;
use crate::spell;

pub const TESTS: [Test; 4] = [
    ("tokens that are prefixes of names, and names of tokens", prefixes),
    ("tokens that differ from a name in one place", one_place),
    ("names and tokens with a spelling at every place", spellings),
    ("names by chance, with tokens near them", by_chance),
];

const LONGEST: usize = 34;

fn pointer(name: &[u16]) -> Vec<u8> {
    token(name).expect("a name below 80")
}

fn prefixes(group: &mut Group) {
    let mut random = Random::new(61);
    for one in [0x61, 0x7E, 0x2F, 0x30] {
        let pointers: Vec<Vec<u8>> = (0..=LONGEST + 2).map(|length| pointer(&vec![one; length])).collect();
        for length in 0..=LONGEST {
            let units = vec![one; length];
            for name in [spell::quoted(&units, &mut random), spell::quoted_in_hex(&units)] {
                group.find_each(format!("{{{name}:{{}}}}").as_bytes(), &pointers);
            }
        }
        let names: Vec<String> =
            (0..=LONGEST).rev().map(|length| spell::quoted(&vec![one; length], &mut random)).collect();
        group.find_each(numbered(&names).as_bytes(), &pointers);
    }
}

/// Each place differs by one bit, in the name's plain spelling and as hex digits.
fn one_place(group: &mut Group) {
    for length in 1..=LONGEST {
        let units: Vec<u16> = (0..length as u16).map(|at| 0x41 + at).collect();
        let mut pointers = vec![pointer(&units)];
        for place in 0..length {
            for bit in 0..7 {
                let mut other = units.clone();
                other[place] ^= 1 << bit;
                pointers.push(pointer(&other));
            }
        }
        let mut random = Random::new(62);
        for name in [spell::quoted(&units, &mut random), spell::quoted_in_hex(&units)] {
            group.find_each(
                format!("[{{\"A\\u0000\":0,{name}:1}}]").as_bytes(),
                pointers.iter().map(|at| [b"/0", &at[..]].concat()),
            );
        }
    }
}

/// A piece at every place of a run, with the token of the same name and of the run with another unit there.
fn spellings(group: &mut Group) {
    for unit in [0x0A, 0x22, 0x2F, 0x5C, 0x61, 0x75, 0x7E, 0x7F] {
        let other = if unit == 0x7E { 0x2F } else { unit ^ 1 };
        for spelling in spell::spellings(unit) {
            for length in 0..=20 {
                for place in 0..=length {
                    let with = |unit: u16| [&vec![0x7A; place][..], &[unit], &vec![0x79; length - place]].concat();
                    let run = format!("{}{spelling}{}", "z".repeat(place), "y".repeat(length - place));
                    let pointers = [pointer(&with(unit)), pointer(&with(other)), pointer(&with(unit)[..length])];
                    group.find_each(format!("{{\"{run}\":1}}").as_bytes(), pointers);
                }
            }
        }
    }
}

fn by_chance(group: &mut Group) {
    let mut random = Random::new(63);
    for round in 0..6000 {
        let units: Vec<u16> = (0..round % 40).map(|_| u16::from(random.pick_byte(b"aab~~/01\"\\\n\x7f\0"))).collect();
        let name = spell::quoted(&units, &mut random);
        let mut near = pointer(&units);
        let place = 1 + random.below(near.len());
        near.splice(place..place, [random.pick_byte(b"ab~/01")]);
        let mut shorter = pointer(&units);
        shorter.remove(random.below(near.len() - 1));
        let cut = pointer(&units[..random.below(units.len() + 1)]);
        group.find_each(format!("{{{name}:[]}}").as_bytes(), [pointer(&units), near, shorter, cut]);
    }
}
