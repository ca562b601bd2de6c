//! Depths up to the ceiling of 64 (5) and beyond, with arrays and objects in all manner of orders.

use crate::group::{Group, Test};
use crate::random::Random;

pub const TESTS: [Test; 3] = [
    ("containers of one kind at every depth", one_kind),
    ("containers of mixed kinds around the full depth", mixed),
    ("full depth reached again and again", again),
];

/// The opening of containers, an object where the choice is true, and their closing.
fn nest(choices: &[bool]) -> (String, String) {
    let open = |&is_object: &bool| if is_object { "{\"a\":" } else { "[" };
    let close = |&is_object: &bool| if is_object { '}' } else { ']' };
    (choices.iter().map(open).collect(), choices.iter().rev().map(close).collect())
}

/// Compares containers with all kinds of things inside, closed well, badly or not at all.
fn with_contents(group: &mut Group, choices: &[bool]) {
    let (open, close) = nest(choices);
    for inside in ["", "1", "[", "{", "[]", "{}", "1,[]", "{{", "[{\"a\"", "\"\"", "1,\"b\":{}", ",", "]", "}"] {
        group.read(format!("{open}{inside}{close}").as_bytes());
        group.read(format!("{open}{inside}").as_bytes());
        group.read(format!(" {open}{inside}{close}]").as_bytes());
    }
}

fn one_kind(group: &mut Group) {
    for depth in 0..=70 {
        with_contents(group, &vec![false; depth]);
        with_contents(group, &vec![true; depth]);
    }
}

fn mixed(group: &mut Group) {
    let mut random = Random::new(1);
    for depth in 60..=68 {
        for _ in 0..40 {
            let choices: Vec<bool> = (0..depth).map(|_| random.one_in(2)).collect();
            with_contents(group, &choices);
        }
    }
}

fn again(group: &mut Group) {
    for depth in 62..=65 {
        for is_object in [false, true] {
            let (open, close) = nest(&vec![is_object; depth - 1]);
            let part = format!("{open}0{close}");
            group.read(format!("[{part},{part},{part}]").as_bytes());
            group.read(format!("{{\"x\":{part},\"y\":{part}").as_bytes());
            group.read(format!("[{part},[{part}]]").as_bytes());
        }
    }
}
