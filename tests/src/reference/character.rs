//! Characters of strings, judged by all that is written of one so far. 01 "The grammar", String.

use super::ceilings::Ceilings;

pub enum Character {
    Unit(u16),
    Unfinished,
    Wrong,
}

/// What these bytes are, which open with no `"`: one character, the beginning of one, or neither.
pub fn judge(spelling: &[u8], ceilings: Ceilings) -> Character {
    match spelling {
        [b'\\'] => Character::Unfinished,
        [b'\\', b'u', digits @ ..] => judge_digits(digits),
        [b'\\', letter] => escaped(*letter).map_or(Character::Wrong, Character::Unit),
        [byte] if *byte >= 0x20 && ceilings.allow_character(*byte) => Character::Unit(u16::from(*byte)),
        _ => Character::Wrong,
    }
}

fn judge_digits(digits: &[u8]) -> Character {
    if !digits.iter().all(u8::is_ascii_hexdigit) {
        return Character::Wrong;
    }
    if digits.len() < 4 {
        return Character::Unfinished;
    }
    let spelled = std::str::from_utf8(digits).expect("hex digits are ASCII");
    Character::Unit(u16::from_str_radix(spelled, 16).expect("four hex digits"))
}

fn escaped(letter: u8) -> Option<u16> {
    match letter {
        b'"' | b'\\' | b'/' => Some(u16::from(letter)),
        b'b' => Some(0x08),
        b'f' => Some(0x0C),
        b'n' => Some(0x0A),
        b'r' => Some(0x0D),
        b't' => Some(0x09),
        _ => None,
    }
}
