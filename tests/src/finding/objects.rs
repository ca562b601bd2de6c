//! Objects of many members, whose members are found wherever they stand.

use crate::group::{Group, Test};
use crate::members::{numbered, ordered, plain, SPELLINGS};
use crate::point;
use crate::random::Random;
use crate::reference;

pub const TESTS: [Test; 3] = [
    ("every member of objects in many orders", orders),
    ("members of objects that fill the longest texts", largest),
    ("members behind members with much inside", inside),
];

fn orders(group: &mut Group) {
    let mut random = Random::new(64);
    for spelling in SPELLINGS {
        for members in [1, 2, 7, 8, 9, 16, 17, 60] {
            for numbers in ordered(&mut random, members) {
                let names: Vec<String> = numbers.into_iter().map(spelling).collect();
                let text = numbered(&names);
                let tree = reference::tree(text.as_bytes());
                let pointers: Vec<Vec<u8>> = point::every(&tree).into_iter().map(|(pointer, _)| pointer).collect();
                group.find_each(text.as_bytes(), &pointers);
                group.find_each(text.as_bytes(), pointers.iter().map(|pointer| [pointer, &b"0"[..]].concat()));
            }
        }
    }
}

/// Some 65,000 members.
fn largest(group: &mut Group) {
    let mut random = Random::new(65);
    for numbers in ordered(&mut random, 65_000).into_iter().skip(2) {
        let names: Vec<String> = numbers.into_iter().map(plain).collect();
        let tokens = [0, 1, 32_500, 64_999, 65_000].map(|number| format!("/{number:06}"));
        group.find_each(numbered(&names).as_bytes(), tokens);
    }
}

/// A member is found behind others whose own members have its name, and in them.
fn inside(group: &mut Group) {
    let mut random = Random::new(66);
    for members in 1..=12 {
        for numbers in ordered(&mut random, members) {
            let names: Vec<String> = numbers.into_iter().map(plain).collect();
            let inner = numbered(&names);
            let member = |name: &String| format!("{name}:[{inner},{{{name}:{inner}}}]");
            let text = format!("{{{}}}", names.iter().map(member).collect::<Vec<String>>().join(", "));
            let tree = reference::tree(text.as_bytes());
            let pointers = point::every(&tree).into_iter().map(|(pointer, _)| pointer);
            group.find_each(text.as_bytes(), pointers.step_by(1 + members / 3));
        }
    }
}
