//! Names whose order is decided behind units that are spelled in two ways, or inside an escape.

use crate::group::{Group, Test};
use crate::members::numbered;
use crate::spell;

pub const TESTS: [Test; 2] =
    [("names that differ behind a unit in two spellings", behind), ("names that differ in one hex digit", inside)];

const LONGEST: usize = 20;

fn both_orders(group: &mut Group, one: String, two: String) {
    let [one, two] = [one, two].map(|name| format!("\"{name}\""));
    group.write(numbered(&[one.clone(), two.clone()]).as_bytes());
    group.write(numbered(&[two, one]).as_bytes());
}

fn behind(group: &mut Group) {
    for unit in [0x0A, 0x22, 0x2F, 0x5C, 0x61, 0x7F, 0xE9, 0xABCD] {
        let spellings = spell::spellings(unit);
        for length in 0..=LONGEST {
            let beginning = "z".repeat(length);
            for one in &spellings {
                for two in &spellings {
                    both_orders(group, format!("{beginning}{one}a"), format!("{beginning}{two}b"));
                    both_orders(group, format!("{beginning}{one}"), format!("{beginning}{two}\\u0000"));
                }
            }
        }
    }
}

/// Digits that differ at one place, in either case, before a unit that would decide otherwise.
fn inside(group: &mut Group) {
    for length in 0..=LONGEST {
        for place in 0..4 {
            for (less, greater) in [("0", "1"), ("9", "a"), ("9", "A"), ("a", "B"), ("A", "b"), ("e", "F"), ("7", "8")]
            {
                let name = |digit: &str, end: &str| {
                    let mut digits = String::from("4b4B");
                    digits.replace_range(place..=place, digit);
                    format!("{}\\u{digits}{end}", "k".repeat(length))
                };
                both_orders(group, name(less, "z"), name(greater, "a"));
            }
        }
    }
}
