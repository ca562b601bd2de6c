//! Another meaning, near a given one.

use crate::random::Random;
use crate::reference::{Decimal, Meaning};
use std::collections::BTreeMap;

/// A meaning that differs in one place, which is chosen by chance.
pub fn changed(meaning: &Meaning, random: &mut Random) -> Meaning {
    match meaning {
        Meaning::Null => Meaning::Boolean(random.one_in(2)),
        Meaning::Boolean(is_true) => Meaning::Boolean(!is_true),
        Meaning::Number(decimal) => Meaning::Number(other_number(decimal, random)),
        Meaning::String(units) => Meaning::String(other_units(units, random)),
        Meaning::Array(elements) => Meaning::Array(other_elements(elements, random)),
        Meaning::Object(members) => Meaning::Object(other_members(members, random)),
    }
}

fn other_number(decimal: &Decimal, random: &mut Random) -> Decimal {
    let Decimal { is_negative, coefficient, exponent } = *decimal;
    if coefficient == 0 {
        return Decimal::normal(random.one_in(2), 1 + random.below(9) as u64, 0);
    }
    match random.below(4) {
        0 => Decimal { is_negative: !is_negative, coefficient, exponent },
        1 => Decimal { is_negative, coefficient, exponent: if exponent > 0 { exponent - 1 } else { exponent + 1 } },
        2 => Decimal::ZERO,
        _ => Decimal { is_negative, coefficient: coefficient / 10 * 10 + (coefficient + 6) % 8 + 1, exponent },
    }
}

fn other_units(units: &[u16], random: &mut Random) -> Vec<u16> {
    let mut other = units.to_vec();
    let place = random.below(units.len() + 1);
    match random.below(3) {
        0 if place < units.len() => other[place] ^= 1 << random.below(16),
        1 if place < units.len() => drop(other.remove(place)),
        _ => other.insert(place, random.below(0x100) as u16),
    }
    other
}

fn other_elements(elements: &[Meaning], random: &mut Random) -> Vec<Meaning> {
    let mut other = elements.to_vec();
    if other.is_empty() {
        return vec![Meaning::Array(Vec::new())];
    }
    let place = random.below(other.len());
    if random.one_in(6) {
        other.remove(place);
    } else {
        other[place] = changed(&elements[place], random);
    }
    other
}

fn other_members(members: &BTreeMap<Vec<u16>, Meaning>, random: &mut Random) -> BTreeMap<Vec<u16>, Meaning> {
    let mut other = members.clone();
    let Some(name) = members.keys().nth(random.below(members.len().max(1))) else {
        return BTreeMap::from([(Vec::new(), Meaning::Null)]);
    };
    let value = other.remove(name).expect("a member of that name");
    match random.below(6) {
        0 => {}
        1 => {
            let name = other_units(name, random);
            other.entry(name).or_insert(value);
        }
        _ => {
            other.insert(name.clone(), changed(&value, random));
        }
    }
    other
}
