//! Objects of many members in many orders and spellings, and objects inside them.

use crate::group::{Group, Test};
use crate::members::{numbered, ordered, plain, SPELLINGS};
use crate::random::Random;

pub const TESTS: [Test; 4] = [
    ("large objects in many orders, by the writer", orders),
    ("objects that fill the longest texts, by the writer", largest),
    ("large objects inside large objects, by the writer", inside),
    ("many objects of a few members, by the writer", many),
];

fn orders(group: &mut Group) {
    let mut random = Random::new(48);
    for spelling in SPELLINGS {
        for members in [7, 8, 9, 16, 17, 100, 1001, 2048] {
            for numbers in ordered(&mut random, members) {
                let names: Vec<String> = numbers.into_iter().map(spelling).collect();
                group.write(numbered(&names).as_bytes());
            }
        }
    }
}

/// Some 65,000 members.
fn largest(group: &mut Group) {
    let mut random = Random::new(49);
    for numbers in ordered(&mut random, 65_000) {
        let names: Vec<String> = numbers.into_iter().map(plain).collect();
        let text = numbered(&names);
        group.write_each(text.as_bytes(), 4 * text.len(), |needed| vec![needed]);
    }
}

/// Each member of the outer object holds a whole one, in an array or by itself.
fn inside(group: &mut Group) {
    let mut random = Random::new(50);
    for outer in ordered(&mut random, 40) {
        for inner in ordered(&mut random, 40) {
            let names: Vec<String> = inner.into_iter().map(plain).collect();
            let member = |&number: &usize| match number % 3 {
                0 => format!("{}:{}", plain(number), numbered(&names)),
                1 => format!("{}:[{number},{}]", plain(number), numbered(&names)),
                _ => format!("{}:{number}", plain(number)),
            };
            let members: Vec<String> = outer.iter().map(member).collect();
            group.write(format!("{{{}}}", members.join(",")).as_bytes());
        }
    }
}

fn many(group: &mut Group) {
    let mut random = Random::new(51);
    for members in [1, 2, 3, 5, 8, 9, 16, 17, 33] {
        let objects: Vec<String> = (0..200)
            .map(|_| {
                let [_, _, order, _] = ordered(&mut random, 40);
                let names: Vec<String> = order[..members].iter().map(|&number| plain(number)).collect();
                numbered(&names)
            })
            .collect();
        group.write(format!("[{}]", objects.join(",")).as_bytes());
    }
}
