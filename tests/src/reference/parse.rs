//! The tree and the meaning of a text that is known to be one. It goes down the grammar, and numbers values in order.

use super::ceilings::Ceilings;
use super::character::{self, Character};
use super::decimal::Decimal;
use super::meaning::Meaning;
use super::tree::{Inside, Tree};
use std::collections::BTreeMap;

pub fn meaning(text: &[u8]) -> Meaning {
    tree(text).meaning()
}

pub fn tree(text: &[u8]) -> Tree {
    Rest { length: text.len(), bytes: text, values: 0 }.value()
}

/// What is left of a text of this length, and how many values have started before it.
struct Rest<'a> {
    length: usize,
    bytes: &'a [u8],
    values: usize,
}

impl<'a> Rest<'a> {
    fn take(&mut self, length: usize) -> &'a [u8] {
        let (taken, rest) = self.bytes.split_at(length);
        self.bytes = rest;
        taken
    }

    fn take_while(&mut self, belongs: fn(&u8) -> bool) -> &'a [u8] {
        self.take(self.bytes.iter().take_while(|byte| belongs(byte)).count())
    }

    fn place(&self) -> usize {
        self.length - self.bytes.len()
    }

    fn take_whitespace(&mut self) {
        self.take_while(|byte| b" \t\n\r".contains(byte));
    }

    /// Takes whitespace and then this byte, or nothing more if another byte stands there.
    fn takes(&mut self, byte: u8) -> bool {
        self.take_whitespace();
        let stands = self.bytes.first() == Some(&byte);
        self.take(usize::from(stands));
        stands
    }

    fn value(&mut self) -> Tree {
        self.take_whitespace();
        let (record, start) = (self.values, self.place());
        self.values += 1;
        let inside = self.inside();
        Tree { record, start, end: self.place(), inside }
    }

    fn inside(&mut self) -> Inside {
        if self.takes(b'"') {
            return Inside::Scalar(Meaning::String(self.units()));
        }
        if self.takes(b'[') {
            return Inside::Array(self.elements());
        }
        if self.takes(b'{') {
            return Inside::Object(self.members());
        }
        Inside::Scalar(self.word_or_number())
    }

    fn word_or_number(&mut self) -> Meaning {
        match self.take_while(|byte| b"+-.".contains(byte) || byte.is_ascii_alphanumeric()) {
            b"null" => Meaning::Null,
            b"true" => Meaning::Boolean(true),
            b"false" => Meaning::Boolean(false),
            number => Meaning::Number(Decimal::of(std::str::from_utf8(number).expect("a number is ASCII"))),
        }
    }

    /// The units up to the closing quote, behind the opening one.
    fn units(&mut self) -> Vec<u16> {
        let mut units = Vec::new();
        while self.bytes[0] != b'"' {
            let length = match self.bytes {
                [b'\\', b'u', ..] => 6,
                [b'\\', ..] => 2,
                _ => 1,
            };
            match character::judge(self.take(length), Ceilings::HOUSE) {
                Character::Unit(unit) => units.push(unit),
                _ => panic!("a text has whole characters"),
            }
        }
        self.take(1);
        units
    }

    fn elements(&mut self) -> Vec<Tree> {
        let mut elements = Vec::new();
        while !self.takes(b']') {
            elements.push(self.value());
            self.takes(b',');
        }
        elements
    }

    fn members(&mut self) -> BTreeMap<Vec<u16>, Tree> {
        let mut members = BTreeMap::new();
        while !self.takes(b'}') {
            assert!(self.takes(b'"'), "a name opens with a quote");
            let name = self.units();
            assert!(self.takes(b':'), "a colon stands behind a name");
            let earlier = members.insert(name, self.value());
            assert!(earlier.is_none(), "a text has no name twice");
            self.takes(b',');
        }
        members
    }
}
