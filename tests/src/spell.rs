//! Ways to spell a string: each unit plain, as a short escape or as four hex digits of either case.

use crate::random::Random;

/// The letters of the short escapes and their units.
pub const SHORT: [(u8, u16); 8] =
    [(b'"', 0x22), (b'\\', 0x5C), (b'/', 0x2F), (b'b', 0x08), (b'f', 0x0C), (b'n', 0x0A), (b'r', 0x0D), (b't', 0x09)];

pub fn lower_hex(unit: u16) -> String {
    format!("\\u{unit:04x}")
}

pub fn upper_hex(unit: u16) -> String {
    format!("\\u{unit:04X}")
}

/// Every spelling of a unit that differs by more than the case of single digits.
pub fn spellings(unit: u16) -> Vec<String> {
    let mut all = vec![lower_hex(unit), upper_hex(unit)];
    for (letter, escaped) in SHORT {
        if escaped == unit {
            all.push(format!("\\{}", char::from(letter)));
        }
    }
    if (0x20..0x80).contains(&unit) && unit != 0x22 && unit != 0x5C {
        all.push(char::from(unit as u8).to_string());
    }
    all
}

/// The units between quotes, each in a spelling by chance. Most that can be are plain.
pub fn quoted(units: &[u16], random: &mut Random) -> String {
    let mut out = String::from("\"");
    for &unit in units {
        let all = spellings(unit);
        let at = if random.one_in(4) { random.below(all.len()) } else { all.len() - 1 };
        out.push_str(&all[at]);
    }
    out.push('"');
    out
}

/// The units between quotes, all as hex digits.
pub fn quoted_in_hex(units: &[u16]) -> String {
    let spelled: String = units.iter().map(|&unit| lower_hex(unit)).collect();
    format!("\"{spelled}\"")
}

pub fn units(plain: &str) -> Vec<u16> {
    plain.encode_utf16().collect()
}
