//! Objects of many members in many orders, with patches of many or few.

use crate::group::{Group, Test};
use crate::members::{ordered, plain, SPELLINGS};
use crate::random::Random;

pub const TESTS: [Test; 4] = [
    ("targets and patches of many members in many orders", orders),
    ("patches of one member at every place among many", one),
    ("targets of one member with patches of many", into_one),
    ("objects that fill the longest texts, by the merge", largest),
];

type Spelling = fn(usize) -> String;

/// An object of the members with these numbers, of which those that a rule names are null.
fn object(numbers: &[usize], spelling: Spelling, is_null: fn(usize) -> bool) -> String {
    let value = |number: usize| if is_null(number) { "null".into() } else { number.to_string() };
    let members: Vec<String> =
        numbers.iter().map(|&number| format!("{}:{}", spelling(number), value(number))).collect();
    format!("{{{}}}", members.join(","))
}

/// Some names are the target's alone, some the patch's alone, and some are shared and set or removed.
fn orders(group: &mut Group) {
    let mut random = Random::new(84);
    for spelling in SPELLINGS {
        for members in [2, 7, 8, 9, 10, 16, 17, 18, 33, 100] {
            for mut target in ordered(&mut random, members) {
                for mut patch in ordered(&mut random, members) {
                    target.retain(|number| number % 5 > 0 || members < 12);
                    patch.retain(|number| number % 3 > 0 || members < 12);
                    let patch = object(&patch, spelling, |number| number % 4 == 1);
                    group.merge(object(&target, spelling, |number| number % 7 == 1), patch);
                }
            }
        }
    }
}

/// The patch removes, sets or adds one member right before, at or behind each of the target's.
fn one(group: &mut Group) {
    let mut random = Random::new(85);
    for members in [1, 2, 8, 9, 17, 64] {
        for numbers in ordered(&mut random, members) {
            let doubled: Vec<usize> = numbers.iter().map(|number| 2 * number + 1).collect();
            let target = object(&doubled, plain, |_| false);
            for number in 0..=2 * members {
                group.merge(&target, format!("{{{}:null}}", plain(number)));
                group.merge(&target, format!("{{{}:{{\"a\":null}}}}", plain(number)));
            }
        }
    }
}

/// The other way round: one member of the target among those of the patch.
fn into_one(group: &mut Group) {
    let mut random = Random::new(86);
    for members in [1, 2, 8, 9, 17, 64] {
        for numbers in ordered(&mut random, members) {
            let doubled: Vec<usize> = numbers.iter().map(|number| 2 * number + 1).collect();
            let patch = object(&doubled, plain, |number| number % 4 == 1);
            for number in 0..=2 * members {
                group.merge(format!("{{{}:[10]}}", plain(number)), &patch);
            }
        }
    }
}

/// Some 66,000 members on one side, and then many on both sides: shared, unshared and removed.
fn largest(group: &mut Group) {
    let mut random = Random::new(87);
    let [_, _, mut shuffled, mut in_turns] = ordered(&mut random, 66_000);
    let few = r#"{"065999":[],"030000":{"a":null},"x":null,"":0}"#;
    group.merge_exactly(object(&shuffled, plain, |_| false), few);
    group.merge_exactly(few, object(&shuffled, plain, |number| number % 3 == 0));
    shuffled.retain(|number| number % 3 > 0);
    in_turns.retain(|number| number % 2 > 0);
    group.merge_exactly(object(&shuffled, plain, |_| false), object(&in_turns, plain, |number| number % 5 == 0));
}
