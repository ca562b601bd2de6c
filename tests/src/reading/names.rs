//! Names of one object: equal through different spellings, prefixes of each other, twins at every distance.

use crate::group::{Group, Test};
use crate::members::object;
use crate::random::Random;
use crate::spell;

pub const TESTS: [Test; 5] = [
    ("names in all pairs of spellings", spellings),
    ("names that are prefixes of each other", prefixes),
    ("names that differ in one unit", one_unit),
    ("twins at every distance", distances),
    ("twins at every distance with another fault", faults),
];

fn spellings(group: &mut Group) {
    let units = [0x00, 0x08, 0x0A, 0x0F, 0x22, 0x2F, 0x41, 0x5C, 0x61, 0x62, 0x6E, 0x75, 0x7F, 0xE9, 0xD800, 0xFFFF];
    let names: Vec<String> = units.iter().flat_map(|&unit| spell::spellings(unit)).collect();
    for one in &names {
        for two in &names {
            group.read(format!("{{\"{one}\":1,\"{two}\":2}}").as_bytes());
            group.read(format!("{{\"{one}{two}\":1,\"{two}{one}\":2,\"{one}\":3").as_bytes());
            group.read(format!("{{\"a{one}\":1,\"\\u0061{two}\":2}}").as_bytes());
        }
    }
}

fn prefixes(group: &mut Group) {
    let mut random = Random::new(4);
    for round in 0..1500 {
        let mut lengths: Vec<usize> = (0..1 + round % 24).collect();
        match round % 3 {
            0 => random.shuffle(&mut lengths),
            1 => lengths.reverse(),
            _ => {}
        }
        if random.one_in(2) {
            lengths.push(random.below(24));
        }
        let name = |length: &usize| spell::quoted(&vec![0x61; *length], &mut random);
        let names: Vec<String> = lengths.iter().map(name).collect();
        group.read(object(&names).as_bytes());
    }
}

/// Three names of one length: one, one that may differ from it in a single place, and one of the two again.
fn one_unit(group: &mut Group) {
    let mut random = Random::new(5);
    for length in 1..=34 {
        for place in 0..length {
            for other in [0x60, 0x62, 0x161, 0x6161] {
                let plain = vec![0x61; length];
                let mut changed = plain.clone();
                changed[place] = other;
                let mut names = vec![spell::quoted(&plain, &mut random), spell::quoted(&changed, &mut random)];
                group.read(object(&names).as_bytes());
                let again = if random.one_in(2) { &plain } else { &changed };
                names.push(spell::quoted(again, &mut random));
                group.read(object(&names).as_bytes());
            }
        }
    }
}

/// Names in an order by chance, the name at one place being the one at an earlier place again.
fn with_twin(random: &mut Random, members: usize, first: usize, second: usize) -> Vec<String> {
    let mut numbers: Vec<usize> = (0..members).collect();
    match random.below(3) {
        0 => random.shuffle(&mut numbers),
        1 => numbers.reverse(),
        _ => {}
    }
    numbers[second] = numbers[first];
    numbers.iter().map(|number| spell::quoted(&spell::units(&format!("n{number:02}")), random)).collect()
}

fn distances(group: &mut Group) {
    let mut random = Random::new(6);
    for members in 2..=34 {
        for second in 1..members {
            for first in 0..second {
                let names = with_twin(&mut random, members, first, second);
                group.read(object(&names).as_bytes());
            }
        }
    }
}

fn faults(group: &mut Group) {
    let mut random = Random::new(7);
    for members in 2..=14 {
        for second in 1..members {
            for first in 0..second {
                let text = object(&with_twin(&mut random, members, first, second)).into_bytes();
                let place = random.below(text.len());
                group.read(&text[..place]);
                for byte in *b"\x00\"\\,:}]x" {
                    let mut wrong = text.clone();
                    wrong[place] = byte;
                    group.read(&wrong);
                }
            }
        }
    }
}
