//! The order of a few names: by units, the first difference deciding and a proper prefix coming first.

use crate::group::{Group, Test};
use crate::members::numbered;
use crate::random::Random;
use crate::spell;

pub const TESTS: [Test; 5] = [
    ("all orders of up to six names", orders),
    ("pairs of units in all spellings", pairs),
    ("names that are prefixes of each other, by the writer", prefixes),
    ("names that differ behind equal beginnings of every length", beginnings),
    ("objects of up to 40 members in orders by chance", by_chance),
];

/// Names that are told apart in ways of one kind.
pub const SETS: [[&str; 6]; 7] = [
    ["", "a", "aa", "aaa", "ab", "b"],
    ["B", "a", "A", "b", "_", "1"],
    [r"\n", " ", r"\u001f", "!", r"\t", r"\u0000"],
    [r"\u00e9", "z", r"\u0061b", r"\uffff", r"\ud800\udc00", r"\ue000"],
    [r"\\", "[", "]", r"\u005d ", r"\/", "0"],
    ["\x7f", "~", r"\u0080", r"\u0100", r"\u7f00", r"\u0001"],
    ["abcdefgh", "abcdefgi", "abcdefg", "abcdefghi", r"abcdefg\u0068 ", "abcdefgh!"],
];

/// Units at the edges of what is plain, what is escaped and what is a byte.
pub const UNITS: [u16; 25] = [
    0x00, 0x09, 0x0A, 0x1F, 0x20, 0x22, 0x2F, 0x41, 0x5B, 0x5C, 0x5D, 0x61, 0x75, 0x7E, 0x7F, 0x80, 0xFF, 0x100, 0x161,
    0x6100, 0xD7FF, 0xD800, 0xDFFF, 0xE000, 0xFFFF,
];

/// All orders of the items (Heap's way).
pub fn permute(items: &mut [&str], length: usize, visit: &mut impl FnMut(&[&str])) {
    if length <= 1 {
        return visit(items);
    }
    for at in 0..length {
        permute(items, length - 1, visit);
        items.swap(if length % 2 == 0 { at } else { 0 }, length - 1);
    }
}

fn orders(group: &mut Group) {
    for mut set in SETS {
        for names in 1..=set.len() {
            permute(&mut set, names, &mut |order| {
                let quoted: Vec<String> = order[..names].iter().map(|name| format!("\"{name}\"")).collect();
                let text = numbered(&quoted);
                group.write_each(text.as_bytes(), 4 * text.len(), |needed| vec![needed]);
            });
        }
    }
}

fn pairs(group: &mut Group) {
    let names: Vec<String> = UNITS.iter().flat_map(|&unit| spell::spellings(unit)).collect();
    for one in &names {
        for two in &names {
            group.write(format!("{{\"{one}\":1,\"{two}\":2}}").as_bytes());
            group.write(format!("{{\"a{one}\":1,\"\\u0061{two}x\":2,\"a\":3}}").as_bytes());
        }
    }
}

fn prefixes(group: &mut Group) {
    let mut random = Random::new(45);
    for round in 0..800 {
        let mut lengths: Vec<usize> = (0..1 + round % 40).collect();
        match round % 3 {
            0 => random.shuffle(&mut lengths),
            1 => lengths.reverse(),
            _ => {}
        }
        let names: Vec<String> =
            lengths.iter().map(|&length| spell::quoted(&vec![0x61; length], &mut random)).collect();
        group.write(numbered(&names).as_bytes());
    }
}

/// Three names with an equal beginning, whose order is decided right behind it, whatever comes later.
fn beginnings(group: &mut Group) {
    let mut random = Random::new(46);
    for length in 0..=70 {
        for (less, greater) in [(0x60, 0x61), (0x7E, 0x7F), (0x22, 0x5C), (0x41, 0x161), (0xFF, 0x100), (0x0A, 0x61)] {
            let beginning = vec![0x61; length];
            let name = |end: &[u16], random: &mut Random| spell::quoted(&[&beginning, end].concat(), random);
            let mut names = vec![name(&[greater, 0], &mut random), name(&[less, 0xFFFF], &mut random)];
            group.write(numbered(&names).as_bytes());
            names.push(name(&[], &mut random));
            group.write(numbered(&names).as_bytes());
            names.swap(0, 1);
            group.write(numbered(&names).as_bytes());
        }
    }
}

fn by_chance(group: &mut Group) {
    let mut random = Random::new(47);
    for round in 0..4000 {
        let mut numbers: Vec<usize> = (0..2 + round % 39).collect();
        random.shuffle(&mut numbers);
        let width = 1 + random.below(20);
        let name = |number: &usize| spell::quoted(&spell::units(&format!("{number:0width$}")), &mut random);
        let names: Vec<String> = numbers.iter().map(name).collect();
        group.write(numbered(&names).as_bytes());
    }
}
