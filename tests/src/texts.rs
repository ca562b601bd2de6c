//! Generated texts of all kinds: nearly all valid, some with a number over an edge or a name that stands twice.

use crate::random::Random;
use crate::{reference, spell};

const WHITESPACE: &[u8] = b" \t\n\r";

/// Names that are often met twice, that are prefixes of each other, and that need escapes.
const NAMES: [&str; 16] =
    ["", "a", "aa", "aaa", "ab", "b", "B", "abc", "abcdefgh", "abcdefghi", "\n", "\"", "\\", "/", "\u{7f}", "\u{0}a"];

/// A text as it grows, and how many more values it may have before containers cease.
struct Growing<'a> {
    random: &'a mut Random,
    out: Vec<u8>,
    values_left: usize,
}

/// A text that opens no more containers once it has this many values, and never one inside 60.
pub fn text(random: &mut Random, values: usize) -> Vec<u8> {
    let mut growing = Growing { random, out: Vec::new(), values_left: values };
    growing.around(|growing| growing.value(0));
    growing.out
}

/// A text of that kind that is accepted.
pub fn accepted(random: &mut Random, values: usize) -> Vec<u8> {
    loop {
        let text = text(random, values);
        if reference::read(&text, &mut vec![0; 4 * text.len()]).number == 0 {
            return text;
        }
    }
}

impl Growing<'_> {
    /// What is written by a step, with whitespace before and after it.
    fn around(&mut self, step: impl FnOnce(&mut Self)) {
        self.whitespace();
        step(self);
        self.whitespace();
    }

    fn whitespace(&mut self) {
        while self.random.one_in(8) {
            let byte = self.random.pick_byte(WHITESPACE);
            self.out.push(byte);
        }
    }

    fn value(&mut self, depth: usize) {
        self.values_left = self.values_left.saturating_sub(1);
        let is_container = self.values_left > 0 && depth < 60 && (depth == 0 || self.random.below(5) < 3);
        if !is_container {
            let scalar = scalar(self.random);
            self.out.extend_from_slice(scalar.as_bytes());
        } else if self.random.one_in(2) {
            self.members(b'[', b']', |growing| growing.value(depth + 1));
        } else {
            self.members(b'{', b'}', |growing| growing.member(depth + 1));
        }
    }

    fn members(&mut self, open: u8, close: u8, mut one: impl FnMut(&mut Self)) {
        self.out.push(open);
        let members = self.random.below(6);
        for member in 0..members {
            if member > 0 {
                self.out.push(b',');
            }
            self.around(&mut one);
        }
        if members == 0 {
            self.whitespace();
        }
        self.out.push(close);
    }

    fn member(&mut self, depth: usize) {
        let name = name(self.random);
        self.out.extend_from_slice(name.as_bytes());
        self.whitespace();
        self.out.push(b':');
        self.whitespace();
        self.value(depth);
    }
}

fn name(random: &mut Random) -> String {
    let mut units = spell::units(random.pick(&NAMES));
    if random.below(8) > 0 {
        units.extend(spell::units(&random.below(1000).to_string()));
    }
    spell::quoted(&units, random)
}

fn scalar(random: &mut Random) -> String {
    match random.below(4) {
        0 => random.pick(&["null", "true", "false"]).into(),
        1 => string(random),
        _ => number(random),
    }
}

/// A string of units of all kinds, single surrogates included.
fn string(random: &mut Random) -> String {
    let length = random.below(12) * random.below(4);
    let units: Vec<u16> = (0..length).map(|_| unit(random)).collect();
    spell::quoted(&units, random)
}

fn unit(random: &mut Random) -> u16 {
    match random.below(8) {
        0 => spell::SHORT[random.below(8)].1,
        1 => random.below(0x1_0000) as u16,
        2 => [0, 0x1F, 0x20, 0x7F, 0x80, 0xD800, 0xDC00, 0xFFFF][random.below(8)],
        _ => (0x20 + random.below(0x60)) as u16,
    }
}

fn digits(random: &mut Random, length: usize) -> String {
    (0..length).map(|_| char::from(random.pick_byte(b"0001234567899"))).collect()
}

/// A number, at times with a digit or a power too much.
fn number(random: &mut Random) -> String {
    let sign = random.pick(&["", "", "-"]);
    let length = random.below(3) * random.below(7);
    let whole =
        if random.one_in(3) { "0".to_string() } else { format!("{}{}", 1 + random.below(9), digits(random, length)) };
    let fraction = match random.below(3) {
        0 => format!(".{}", digits(random, 1 + length / 2)),
        _ => String::new(),
    };
    format!("{sign}{whole}{fraction}{}", exponent(random))
}

fn exponent(random: &mut Random) -> String {
    let letter = random.pick(&["e", "E"]);
    let sign = random.pick(&["", "+", "-"]);
    match random.below(6) {
        0 => format!("{letter}{sign}{}", random.below(100)),
        1 => format!("{letter}{sign}{:03}", random.pick(&[&0, &1, &9, &980, &998, &999])),
        2 => format!("{letter}{sign}{}", random.below(1020)),
        _ => String::new(),
    }
}
