//! A machine that judges one byte at a time. 01 "The grammar".
//! It lets a byte stand exactly if some continuation makes the bytes so far a text within the ceilings: whatever is
//! begun can be ended, since a container can be closed, a string can be closed behind another character, a word and a
//! member can be finished, and a beginning of a number becomes a number with a digit more.

use super::ceilings::Ceilings;
use super::character::{self, Character};
use super::number;
use super::records::Value;
use std::collections::HashSet;

/// What stands at the next byte, whitespace apart.
pub enum Due {
    /// A value, or right behind `[` also `]`.
    Value {
        or_end: bool,
    },
    /// A name, or right behind `{` also `}`.
    Name {
        or_end: bool,
    },
    Colon,
    /// Behind a value: `,` or the end of what is around it.
    Separator,
    /// The letters left of `null`, `true` or `false`.
    Word(&'static [u8]),
    /// More of a number that is written so far as given, or what stands behind it.
    Number(Vec<u8>),
    String(Unfinished),
}

/// A string so far: its units, and the spelling of a character that isn't complete.
pub struct Unfinished {
    pub is_name: bool,
    pub units: Vec<u16>,
    pub spelling: Vec<u8>,
}

/// What a byte that may stand does.
pub enum Step {
    Whitespace,
    Open { is_object: bool },
    Close,
    Comma,
    Colon,
    Quote { is_name: bool },
    Letter { left: &'static [u8] },
    Digit { spelling: Vec<u8> },
    PartOfCharacter { spelling: Vec<u8> },
    Unit(u16),
    EndOfString,
}

/// An open container, with the names of its members so far if it is an object.
pub struct Container {
    pub value: Value,
    pub names: Option<HashSet<Vec<u16>>>,
}

pub struct Machine {
    pub due: Due,
    pub open: Vec<Container>,
    /// Where the scalar that is being read starts.
    pub start: usize,
    /// The opening quote of the name whose value is due.
    pub name: Option<usize>,
    pub root: Option<Value>,
}

fn is_whitespace(byte: u8) -> bool {
    matches!(byte, 0x20 | 0x09 | 0x0A | 0x0D)
}

impl Machine {
    pub fn new() -> Machine {
        Machine { due: Due::Value { or_end: false }, open: Vec::new(), start: 0, name: None, root: None }
    }

    /// What the byte does here, or none if it can't stand.
    pub fn judge(&self, byte: u8, ceilings: Ceilings) -> Option<Step> {
        match &self.due {
            Due::Word(left) => (byte == left[0]).then_some(Step::Letter { left: &left[1..] }),
            Due::Number(spelling) => self.judge_in_number(spelling, byte, ceilings),
            Due::String(string) => self.judge_in_string(string, byte, ceilings),
            _ if is_whitespace(byte) => Some(Step::Whitespace),
            Due::Value { or_end: true } if byte == b']' => Some(Step::Close),
            Due::Value { .. } => self.judge_value(byte, ceilings),
            Due::Name { or_end: true } if byte == b'}' => Some(Step::Close),
            Due::Name { .. } => (byte == b'"').then_some(Step::Quote { is_name: true }),
            Due::Colon => (byte == b':').then_some(Step::Colon),
            Due::Separator => self.judge_separator(byte),
        }
    }

    fn judge_value(&self, byte: u8, ceilings: Ceilings) -> Option<Step> {
        match byte {
            b'[' | b'{' => {
                let is_object = byte == b'{';
                ceilings.allow_depth(self.open.len() + 1).then_some(Step::Open { is_object })
            }
            b'"' => Some(Step::Quote { is_name: false }),
            b'n' => Some(Step::Letter { left: b"ull" }),
            b't' => Some(Step::Letter { left: b"rue" }),
            b'f' => Some(Step::Letter { left: b"alse" }),
            _ => number::is_beginning(&[byte], ceilings).then(|| Step::Digit { spelling: vec![byte] }),
        }
    }

    fn judge_separator(&self, byte: u8) -> Option<Step> {
        let around = self.open.last()?;
        let end = if around.names.is_some() { b'}' } else { b']' };
        match byte {
            b',' => Some(Step::Comma),
            _ => (byte == end).then_some(Step::Close),
        }
    }

    /// A byte that isn't part of the number may still stand behind it.
    fn judge_in_number(&self, spelling: &[u8], byte: u8, ceilings: Ceilings) -> Option<Step> {
        let longer = [spelling, &[byte]].concat();
        if number::is_beginning(&longer, ceilings) {
            Some(Step::Digit { spelling: longer })
        } else if !number::is_number(spelling) {
            None
        } else if is_whitespace(byte) {
            Some(Step::Whitespace)
        } else {
            self.judge_separator(byte)
        }
    }

    fn judge_in_string(&self, string: &Unfinished, byte: u8, ceilings: Ceilings) -> Option<Step> {
        if byte == b'"' && string.spelling.is_empty() {
            let is_repeated = string.is_name && self.names_around().contains(&string.units);
            return ceilings.allow_name(is_repeated).then_some(Step::EndOfString);
        }
        let longer = [&string.spelling, &[byte][..]].concat();
        match character::judge(&longer, ceilings) {
            Character::Unit(unit) => Some(Step::Unit(unit)),
            Character::Unfinished => Some(Step::PartOfCharacter { spelling: longer }),
            Character::Wrong => None,
        }
    }

    fn names_around(&self) -> &HashSet<Vec<u16>> {
        self.open.last().and_then(|container| container.names.as_ref()).expect("names stand in objects")
    }
}
