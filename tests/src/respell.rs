//! A text of a meaning by chance: members in any order, strings and numbers in any spelling, whitespace anywhere.

use crate::random::Random;
use crate::reference::{Decimal, Meaning};
use crate::spell;

const MAX_DIGITS: usize = 18;
const MAX_WRITTEN: i64 = 999;

pub fn respelled(meaning: &Meaning, random: &mut Random) -> String {
    let value = match meaning {
        Meaning::Null => "null".into(),
        Meaning::Boolean(is_true) => is_true.to_string(),
        Meaning::Number(decimal) => number(decimal, random),
        Meaning::String(units) => spell::quoted(units, random),
        Meaning::Array(elements) => {
            let elements: Vec<String> = elements.iter().map(|element| respelled(element, random)).collect();
            format!("[{}{}]", elements.join(","), space(random))
        }
        Meaning::Object(members) => {
            let mut members: Vec<String> = members.iter().map(|(name, value)| member(name, value, random)).collect();
            random.shuffle(&mut members);
            format!("{{{}{}}}", members.join(","), space(random))
        }
    };
    format!("{}{value}{}", space(random), space(random))
}

fn member(name: &[u16], value: &Meaning, random: &mut Random) -> String {
    let name = format!("{}{}{}", space(random), spell::quoted(name, random), space(random));
    format!("{name}:{}", respelled(value, random))
}

fn space(random: &mut Random) -> &'static str {
    random.pick(&["", "", "", "", " ", "\n", "\t\r", "  \n "])
}

fn number(decimal: &Decimal, random: &mut Random) -> String {
    if *decimal == Decimal::ZERO {
        return zero(random);
    }
    let sign = if decimal.is_negative { "-" } else { "" };
    let (zeros, behind) = (random.below(4) * random.below(4), random.below(5) * random.below(5));
    let digits = format!("{}{}", decimal.coefficient, "0".repeat(zeros));
    let digits = format!("{digits:0>width$}", width = behind + 1);
    let written = decimal.exponent - zeros as i64 + behind as i64;
    if digits.len() > MAX_DIGITS || written.abs() > MAX_WRITTEN {
        return format!("{sign}{}e{}", decimal.coefficient, decimal.exponent);
    }
    let (whole, fraction) = digits.split_at(digits.len() - behind);
    let point = if behind > 0 { "." } else { "" };
    format!("{sign}{whole}{point}{fraction}{}", exponent(written, random))
}

fn zero(random: &mut Random) -> String {
    let digits = random.pick(&["0", "-0", "0.0", "-0.00", "0.00000000000000000"]);
    let written = random.below(2 * MAX_WRITTEN as usize + 1) as i64 - MAX_WRITTEN;
    format!("{digits}{}", exponent(written * random.below(2) as i64, random))
}

fn exponent(written: i64, random: &mut Random) -> String {
    if written == 0 && random.one_in(2) {
        return String::new();
    }
    let sign = if written < 0 { "-" } else { random.pick(&["", "+"]) };
    let (letter, width) = (random.pick(&["e", "E"]), 1 + random.below(3));
    format!("{letter}{sign}{:0width$}", written.abs())
}
