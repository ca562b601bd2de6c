//! Paths down to the full depth of 64, right all the way or wrong at one level.

use crate::answer::Answer;
use crate::group::{Group, Test};
use crate::random::Random;

pub const TESTS: [Test; 3] = [
    ("paths of one kind to every depth", one_kind),
    ("paths that are wrong at one level", wrong),
    ("paths of mixed kinds with siblings", mixed),
];

const DEEPEST: usize = 64;

/// What stands before and behind the next value down, and its token.
type Level = [&'static str; 3];

const PLAIN: [Level; 3] = [["[", "]", "/0"], ["{\"a\":", "}", "/a"], ["{\"\":", "}", "/"]];

/// Levels with siblings, which are up to two containers deep themselves.
const CROWDED: [Level; 5] = [
    ["[0,{},", ",[]]", "/2"],
    ["{\"b\":{\"a\":1},\"\\u0061\" : ", ",\"c\":[]}", "/a"],
    ["{ \"~\":[[]], \"/\\u007e\":", "}", "/~1~0"],
    ["[[[1]],\"\",", "]", "/2"],
    ["{\"0\":1,\"1\":[2],\"3\":", ",\"2\":{\"3\":4}}", "/3"],
];

/// The levels around a value, and their tokens.
fn nest(levels: &[Level], value: &str) -> (String, Vec<&'static str>) {
    let before: String = levels.iter().map(|level| level[0]).collect();
    let behind: String = levels.iter().rev().map(|level| level[1]).collect();
    (format!("{before}{value}{behind}"), levels.iter().map(|level| level[2]).collect())
}

/// The pointers to each level, and one beyond the last.
fn down(tokens: &[&str]) -> Vec<String> {
    (0..=tokens.len() + 1).map(|depth| [&tokens[..], &["/0"]].concat()[..depth].concat()).collect()
}

/// A text of full depth of each kind, with its tokens.
fn of_full_depth() -> Vec<(String, Vec<&'static str>)> {
    let plain = PLAIN.map(|level| nest(&[level; DEEPEST], "5"));
    let crowded = CROWDED.map(|level| nest(&[level; DEEPEST - 2], "5"));
    plain.into_iter().chain(crowded).collect()
}

fn one_kind(group: &mut Group) {
    for (text, tokens) in of_full_depth() {
        group.find_each(text.as_bytes(), down(&tokens));
    }
    for level in [&PLAIN[..], &CROWDED].concat() {
        for depth in 0..=DEEPEST + 1 {
            let (text, tokens) = nest(&vec![level; depth], "[]");
            group.find_each(text.as_bytes(), &down(&tokens)[depth.saturating_sub(2)..]);
        }
    }
}

/// The first token that names nothing decides, whatever stands behind it.
fn wrong(group: &mut Group) {
    for (text, tokens) in of_full_depth() {
        for place in 0..tokens.len() {
            for token in ["/x", "/00", "/9", "/-", "/aa", "/~01", "/4294967296", "/ "] {
                let pointer = [&tokens[..place], &[token], &tokens[place + 1..]].concat().concat();
                let slash = tokens[..place].concat().len();
                group.find_refused(text.as_bytes(), pointer.as_bytes(), Answer::refused(11, 2, slash));
            }
        }
    }
}

fn mixed(group: &mut Group) {
    let mut random = Random::new(67);
    let kinds = [&PLAIN[..], &CROWDED].concat();
    for round in 0..400 {
        let depth = [2, 5, 20, 40, 62][round % 5];
        let levels: Vec<Level> = (0..depth).map(|_| kinds[random.below(kinds.len())]).collect();
        let (text, mut tokens) = nest(&levels, "[ true ]");
        group.find_each(text.as_bytes(), down(&tokens));
        tokens[random.below(depth)] = kinds[random.below(kinds.len())][2];
        group.find(text.as_bytes(), tokens.concat().as_bytes());
    }
}
