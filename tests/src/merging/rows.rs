//! Sheets: objects of rows that are objects themselves, and edits of their cells.

use crate::group::{Group, Test};
use crate::members::{ordered, plain};
use crate::random::Random;

pub const TESTS: [Test; 3] = [
    ("edits of single cells of a sheet", cells),
    ("edits of many rows of a sheet at once", many),
    ("one edit after another", one_after_another),
];

const FIELDS: [&str; 9] = ["label", "amount", "tax", "account", "paid", "note", "a", "amounts", "\\u006e"];

/// A row of the first fields, in an order by chance, each with a value by chance.
fn row(random: &mut Random, fields: usize, values: &[&str]) -> String {
    let mut names = FIELDS;
    random.shuffle(&mut names[..fields]);
    let members: Vec<String> =
        names[..fields].iter().map(|name| format!("\"{name}\":{}", random.pick(values))).collect();
    format!("{{{}}}", members.join(","))
}

const VALUES: [&str; 7] =
    ["null", "\"Rent, May \\\"21\\\"\"", "-120.50", "0.19", "true", "[1,{\"x\":null}]", "{\"y\":1}"];
const CHANGES: [&str; 6] = ["null", "null", "\"\\u0041\"", "7", "{\"y\":null}", "{\"z\":{\"w\":null}}"];

/// Rows of these numbers, made one by one.
fn sheet(numbers: &[usize], mut one: impl FnMut() -> String) -> String {
    let rows: Vec<String> = numbers.iter().map(|&number| format!("{} : {}", plain(number), one())).collect();
    format!("{{{}}}", rows.join(",\n"))
}

fn cells(group: &mut Group) {
    let mut random = Random::new(88);
    for rows in [1, 3, 10] {
        for numbers in ordered(&mut random, rows) {
            let target = sheet(&numbers, || row(&mut random, 9, &VALUES));
            for number in 0..=rows {
                for field in FIELDS {
                    for change in ["null", "2.0", "{\"y\":null,\"x\":[null]}"] {
                        group.merge_exactly(&target, format!("{{{}:{{\"{field}\":{change}}}}}", plain(number)));
                    }
                }
                group.merge(&target, format!("{{{}:null}}", plain(number)));
                group.merge(&target, format!("{{{}:{{}}}}", plain(number)));
            }
        }
    }
}

fn many(group: &mut Group) {
    let mut random = Random::new(89);
    for round in 0..400 {
        let [_, _, numbers, _] = ordered(&mut random, 1 + round % 40);
        let target = sheet(&numbers, || row(&mut random, 6, &VALUES));
        let [_, _, mut numbers, _] = ordered(&mut random, 3 + round % 40);
        numbers.truncate(1 + random.below(numbers.len()));
        let patch = sheet(&numbers, || {
            let fields = random.below(10);
            if random.one_in(8) {
                "null".into()
            } else {
                row(&mut random, fields, &CHANGES)
            }
        });
        group.merge(target, patch);
    }
}

/// The result of each edit is the target of the next.
fn one_after_another(group: &mut Group) {
    let mut random = Random::new(90);
    for rows in 1..=20 {
        let numbers: Vec<usize> = (0..rows).collect();
        let mut target = sheet(&numbers, || row(&mut random, 6, &VALUES)).into_bytes();
        for _ in 0..40 {
            let fields = 1 + random.below(3);
            let number = random.below(rows + 2);
            let patch = format!("{{{}:{}}}", plain(number), row(&mut random, fields, &CHANGES));
            group.merge(&target, &patch);
            target = super::compare::merged(&target, &patch).unwrap_or_default();
        }
    }
}
