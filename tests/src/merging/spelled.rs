//! Names of every length in target and patch: equal, prefixes, and different in one place, in any spelling.

use crate::group::{Group, Test};
use crate::random::Random;
use crate::spell;

pub const TESTS: [Test; 4] = [
    ("names of every length that differ in one place, across target and patch", one_place),
    ("names that differ behind equal beginnings, across target and patch", beginnings),
    ("names with a spelling at every place, across target and patch", spellings),
    ("very long names that differ at their ends, across target and patch", very_long),
];

const LONGEST: usize = 34;

/// Two spellings of a name: by chance, and all in hex digits.
fn both(units: &[u16], random: &mut Random) -> [String; 2] {
    [spell::quoted(units, random), spell::quoted_in_hex(units)]
}

/// A name that differs by one bit isn't removed, and stands beside the other.
fn one_place(group: &mut Group) {
    let mut random = Random::new(82);
    for length in 1..=LONGEST {
        let units: Vec<u16> = (0..length as u16).map(|at| 0x41 + at).collect();
        let [plain, hex] = both(&units, &mut random);
        group.merge(format!("{{{plain}:1}}"), format!("{{{hex}:null}}"));
        for place in 0..length {
            for bit in [0, 1, 5, 7, 8, 15] {
                let mut near = units.clone();
                near[place] ^= 1 << bit;
                let [other, other_hex] = both(&near, &mut random);
                group.merge(format!("{{{plain}:1}}"), format!("{{{other}:null,{hex}:[]}}"));
                group.merge(format!("{{{other_hex}:0,{plain}:1}}"), format!("{{{other}:2}}"));
            }
        }
    }
}

/// The order is decided right behind the beginning, whatever comes later.
fn beginnings(group: &mut Group) {
    let mut random = Random::new(83);
    for length in 0..=70 {
        for (less, greater) in [(0x60, 0x61), (0x7E, 0x7F), (0x22, 0x5C), (0x41, 0x161), (0xFF, 0x100), (0x0A, 0x61)] {
            let mut name = |end: &[u16]| spell::quoted(&[&vec![0x61; length], end].concat(), &mut random);
            let names = [name(&[greater, 0]), name(&[less, 0xFFFF]), name(&[])];
            let again = [name(&[greater, 0]), name(&[less, 0xFFFF]), name(&[])];
            for at in 0..3 {
                let (one, two, three) = (&names[at], &names[(at + 1) % 3], &names[(at + 2) % 3]);
                group.merge(format!("{{{one}:1}}"), format!("{{{two}:2,{three}:3}}"));
                group.merge(format!("{{{one}:1,{two}:2}}"), format!("{{{three}:3,{}:null}}", again[at]));
                group.merge(format!("{{{one}:{{{two}:2}},{three}:0}}"), format!("{{{}:{{{three}:3}}}}", again[at]));
            }
        }
    }
}

/// A unit in each pair of its spellings at every place of a run, and the run without it.
fn spellings(group: &mut Group) {
    for unit in [0x0A, 0x22, 0x2F, 0x5C, 0x61, 0x75, 0x7F, 0xABCD] {
        let spellings = spell::spellings(unit);
        for length in 0..=12 {
            for place in 0..=length {
                let run = |piece: &str| format!("\"{}{piece}{}\"", "z".repeat(place), "y".repeat(length - place));
                for one in &spellings {
                    for two in &spellings {
                        let target = format!("{{{}:{{\"k\":1}},{}:0}}", run(one), run(""));
                        group.merge_exactly(&target, format!("{{{}:{{\"l\":2}}}}", run(two)));
                        group.merge_exactly(&target, format!("{{{}:null,{}:[]}}", run(two), run("\\u0000")));
                    }
                }
            }
        }
    }
}

fn very_long(group: &mut Group) {
    for length in [127, 128, 255, 256, 257, 1000, 4095, 4096, 4097, 65_536] {
        let name = |end: &str| format!("\"{}{end}\"", "n".repeat(length));
        for [one, two] in [["a", "b"], ["b", "\\u0061"], ["", "a"], ["a", ""], ["a", "\\u0061"]] {
            group.merge(format!("{{{}:1}}", name(one)), format!("{{{}:null}}", name(two)));
            group.merge(format!("{{{}:{{\"k\":1}}}}", name(one)), format!("{{{}:{{\"l\":2}}}}", name(two)));
        }
    }
}
