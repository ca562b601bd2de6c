//! Nulls of target and patch at every level, reached through objects only or inside arrays.

use crate::group::{Group, Test};

pub const TESTS: [Test; 4] = [
    ("nulls of the patch at every level", of_patch),
    ("nulls of the target at every level", of_target),
    ("nulls inside arrays of the patch at every level", inside_arrays),
    ("nulls that leave nothing", nothing_left),
];

const LEVELS: usize = 12;

/// A value inside objects of these names.
fn under(names: &[&str], value: &str) -> String {
    let before: String = names.iter().map(|name| format!("{{\"{name}\":")).collect();
    format!("{before}{value}{}", "}".repeat(names.len()))
}

/// A value inside some objects of one name, each with a sibling before it and one behind.
fn crowded(levels: usize, value: &str) -> String {
    format!("{}{value}{}", r#"{"b":null,"m":"#.repeat(levels), r#","z":{"n":null}}"#.repeat(levels))
}

/// The target goes as deep as the patch, less deep or deeper, and ends in any kind.
fn of_patch(group: &mut Group) {
    for levels in 0..LEVELS {
        for target_levels in 0..LEVELS {
            for end in ["null", "1", "[]", "{}", r#"{"m":5,"k":null}"#, r#"{"m":{"m":null}}"#] {
                let target = under(&vec!["m"; target_levels], end);
                for null in ["null", r#"{"m":null}"#, r#"{"k":null,"m":{}}"#, r#"{"k":{"k":null}}"#] {
                    group.merge(&target, under(&vec!["m"; levels], null));
                    group.merge(&target, crowded(levels, null));
                }
            }
        }
    }
}

/// They stay wherever the patch doesn't name them.
fn of_target(group: &mut Group) {
    for levels in 0..LEVELS {
        let target = crowded(levels, "null");
        for patch_levels in 0..LEVELS {
            for end in ["{}", "null", "2", r#"{"y":null}"#, r#"{"b":null}"#, r#"{"z":{}}"#, r#"{"z":{"n":null}}"#] {
                group.merge(&target, under(&vec!["m"; patch_levels], end));
            }
        }
    }
}

/// Once an array is entered every null stays, whatever objects stand inside the array.
fn inside_arrays(group: &mut Group) {
    let ends = ["[null]", r#"[{"m":null}]"#, r#"[[{"a":{"b":null}},null]]"#, r#"[{"m":[{"m":null}],"n":null}]"#];
    for levels in 0..LEVELS {
        for end in ends {
            for target in ["{}", "[null]", "1", r#"{"m":{"m":null}}"#, &crowded(levels, "0"), &crowded(levels, end)] {
                group.merge(target, under(&vec!["m"; levels], end));
                group.merge(target, crowded(levels, end));
            }
        }
    }
}

/// Objects of which every member is removed, at each level.
fn nothing_left(group: &mut Group) {
    for levels in 0..LEVELS {
        let names = vec!["m"; levels];
        for members in 1..12 {
            let object = |value: &str| {
                let members: Vec<String> = (0..members).map(|name| format!("\"{name}\":{value}")).collect();
                format!("{{{}}}", members.join(","))
            };
            for value in ["1", "null", "{}", r#"{"a":[]}"#] {
                group.merge(under(&names, &object(value)), under(&names, &object("null")));
            }
            group.merge("{}", under(&names, &object("null")));
            group.merge(under(&names, "{}"), under(&names, &object(r#"{"a":null}"#)));
        }
    }
}
