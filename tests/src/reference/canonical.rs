//! The canonical text of a meaning. 01 "Canonical text".

use super::decimal::Decimal;
use super::meaning::Meaning;

pub fn canonical(meaning: &Meaning) -> String {
    let mut out = String::new();
    write(meaning, &mut out);
    out
}

fn write(meaning: &Meaning, out: &mut String) {
    match meaning {
        Meaning::Null => out.push_str("null"),
        Meaning::Boolean(is_true) => out.push_str(if *is_true { "true" } else { "false" }),
        Meaning::Number(decimal) => out.push_str(&number(decimal)),
        Meaning::String(units) => string(units, out),
        Meaning::Array(elements) => list(['[', ']'], elements.iter(), out, write),
        Meaning::Object(members) => list(['{', '}'], members.iter(), out, |(name, value), out| {
            string(name, out);
            out.push(':');
            write(value, out);
        }),
    }
}

/// The items between brackets, parted by commas.
fn list<T>(brackets: [char; 2], items: impl Iterator<Item = T>, out: &mut String, one: fn(T, &mut String)) {
    out.push(brackets[0]);
    for (at, item) in items.enumerate() {
        if at > 0 {
            out.push(',');
        }
        one(item, out);
    }
    out.push(brackets[1]);
}

/// A number of Rust is shown in fewest digits, with `-` where negative and never `+`.
fn number(decimal: &Decimal) -> String {
    let sign = if decimal.is_negative { "-" } else { "" };
    match decimal.exponent {
        0 => format!("{sign}{}", decimal.coefficient),
        exponent => format!("{sign}{}e{exponent}", decimal.coefficient),
    }
}

fn string(units: &[u16], out: &mut String) {
    out.push('"');
    for &unit in units {
        match unit {
            0x22 => out.push_str("\\\""),
            0x5C => out.push_str("\\\\"),
            0x20..=0x7E => out.push(char::from(unit as u8)),
            _ => out.push_str(&format!("\\u{unit:04x}")),
        }
    }
    out.push('"');
}
