//! Objects of thousands of members in many orders and spellings, with and without a twin.

use crate::group::{Group, Test};
use crate::members::{object, ordered, plain, SPELLINGS};
use crate::random::Random;

pub const TESTS: [Test; 5] = [
    ("large objects in many orders, with and without a twin", orders),
    ("objects that fill the longest texts", largest),
    ("large objects that are refused for another reason", other_faults),
    ("large objects inside large objects", inside),
    ("many objects of a few members", many),
];

/// The numbers as they are, and with a twin near the start, near the end, and from one end to the other.
fn with_twins(numbers: &[usize]) -> [Vec<usize>; 5] {
    let last = numbers.len() - 1;
    [(0, 0), (0, 1), (last - 1, last), (0, last), (2, last - 2)].map(|(first, second)| {
        let mut twins = numbers.to_vec();
        twins[second] = twins[first];
        twins
    })
}

fn orders(group: &mut Group) {
    let mut random = Random::new(30);
    for spelling in SPELLINGS {
        for members in [100, 1001, 4096] {
            for numbers in ordered(&mut random, members) {
                for twins in with_twins(&numbers) {
                    let names: Vec<String> = twins.into_iter().map(spelling).collect();
                    group.read(object(&names).as_bytes());
                }
            }
        }
    }
}

/// Some 95,000 members: without a twin, and with one from end to end.
fn largest(group: &mut Group) {
    let mut random = Random::new(34);
    for numbers in ordered(&mut random, 95_000) {
        for twins in [0, 3].map(|choice| with_twins(&numbers)[choice].clone()) {
            let names: Vec<String> = twins.into_iter().map(plain).collect();
            group.read(object(&names).as_bytes());
        }
    }
}

fn other_faults(group: &mut Group) {
    let mut random = Random::new(31);
    for numbers in ordered(&mut random, 3000) {
        for twins in with_twins(&numbers) {
            let names: Vec<String> = twins.into_iter().map(plain).collect();
            let text = object(&names).into_bytes();
            group.read(&text[..text.len() - 1]);
            group.read(&text[..random.below(text.len())]);
            group.read(&[&text[..], b"]"].concat());
            let mut broken = text.clone();
            broken[random.below(text.len())] = 0;
            group.read(&broken);
        }
    }
}

/// A twin in the outer object or the inner one, before or behind.
fn inside(group: &mut Group) {
    let mut random = Random::new(32);
    for numbers in ordered(&mut random, 1000) {
        for outer in with_twins(&numbers) {
            for inner in with_twins(&numbers) {
                let names: Vec<String> = inner.into_iter().map(plain).collect();
                let member = |number: usize| match number {
                    500 => format!("{}:{}", plain(number), object(&names)),
                    _ => format!("{}:[]", plain(number)),
                };
                let members: Vec<String> = outer.iter().map(|&number| member(number)).collect();
                group.read(format!("{{{}}}", members.join(",")).as_bytes());
            }
        }
    }
}

fn many(group: &mut Group) {
    let mut random = Random::new(33);
    for members in [1, 2, 3, 5, 8, 9, 16, 17, 33] {
        let one = |twin: usize, random: &mut Random| {
            let order = ordered(random, 40)[2].clone();
            let mut names: Vec<String> = order[..members].iter().map(|&number| plain(number)).collect();
            names[twin % members] = names[0].clone();
            object(&names)
        };
        for last_twin in 0..members {
            let mut objects: Vec<String> = (0..200).map(|_| one(0, &mut random)).collect();
            objects.push(one(last_twin, &mut random));
            group.read(format!("[{}]", objects.join(",")).as_bytes());
        }
    }
}
