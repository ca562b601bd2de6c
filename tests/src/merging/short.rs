//! All small pairs of some kinds.

use crate::group::{Group, Test};

pub const TESTS: [Test; 4] = [
    ("all pairs of objects of two names and two levels", two_levels),
    ("all ways in which four names stand in target and patch", four_names),
    ("all texts of up to 4 structural bytes as patch and as target", |group| every(group, b"", b"[]{}:,\"1 ", 4)),
    ("all continuations of an object by up to 5 bytes, as patch and as target", |group| {
        every(group, br#"{"a":"#, b"1n{}\"a:,", 5)
    }),
];

/// Objects of `a` and `b`, each absent or one of the values given for it.
fn objects(of_a: &[String], of_b: &[String]) -> Vec<String> {
    let mut all = vec!["{}".into()];
    all.extend(of_a.iter().map(|a| format!("{{\"a\":{a}}}")));
    all.extend(of_b.iter().map(|b| format!("{{\"b\":{b}}}")));
    for a in of_a {
        all.extend(of_b.iter().map(|b| format!("{{\"b\":{b},\"a\":{a}}}")));
    }
    all
}

fn two_levels(group: &mut Group) {
    let least = ["null", "1", "[null]", "{}"].map(String::from);
    let lower = [&least[..3], &objects(&least, &least)].concat();
    let upper = objects(&lower, &least[..3]);
    for target in &upper {
        for patch in &upper {
            group.merge_exactly(target, patch);
        }
    }
}

/// The names in two orders and spellings, and what may stand for each in target and patch.
const NAMES: [[&str; 2]; 4] = [["b", r"\u0062"], ["", ""], ["\\u0061b", "ab"], ["a", "a"]];
const IN_TARGET: [Option<&str>; 4] = [None, Some("null"), Some("10"), Some(r#"{"l":0,"k":1}"#)];
const IN_PATCH: [Option<&str>; 4] = [None, Some("null"), Some("[2]"), Some(r#"{"k":null,"m":3}"#)];

fn four_names(group: &mut Group) {
    for choice in 0..16_usize.pow(4) {
        let member = |at: usize| {
            let ways = choice / 16_usize.pow(at as u32) % 16;
            [IN_TARGET[ways % 4], IN_PATCH[ways / 4]]
        };
        let object = |side: usize, order: [usize; 4]| {
            let members = order.into_iter().filter_map(|at| Some((NAMES[at][side], member(at)[side]?)));
            let members: Vec<String> = members.map(|(name, value)| format!("\"{name}\":{value}")).collect();
            format!("{{{}}}", members.join(","))
        };
        group.merge_exactly(object(0, [0, 1, 2, 3]), object(1, [2, 0, 3, 1]));
    }
}

/// Compares the beginning with all continuations of up to this many bytes, as a patch and as a target.
fn every(group: &mut Group, beginning: &[u8], alphabet: &[u8], length: usize) {
    extend(group, &mut beginning.to_vec(), alphabet, length);
}

fn extend(group: &mut Group, text: &mut Vec<u8>, alphabet: &[u8], length: usize) {
    group.merge_exactly(br#"{"a":{"":1},"":null}"#, &text);
    group.merge_exactly(&text, br#"{"a":{"a":2},"":{}}"#);
    if length == 0 {
        return;
    }
    for &byte in alphabet {
        text.push(byte);
        extend(group, text, alphabet, length - 1);
        text.pop();
    }
}
