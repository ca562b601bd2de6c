//! Objects of every depth up to 64 on either side, and pairs that part at every depth.

use crate::group::{Group, Test};
use crate::random::Random;

pub const TESTS: [Test; 4] = [
    ("targets and patches of every depth", every),
    ("pairs that part at every depth", parting),
    ("arrays down to full depth inside a patch", arrays),
    ("pairs with siblings of mixed kinds down to full depth", mixed),
];

const DEEPEST: usize = 64;

/// A value inside so many objects, and what stands before and behind it in each.
fn nest(levels: usize, [before, behind]: [&str; 2], value: &str) -> String {
    format!("{}{value}{}", before.repeat(levels), behind.repeat(levels))
}

const PLAIN: [&str; 2] = ["{\"a\":", "}"];
const SPELLED: [&str; 2] = ["{ \"\\u0061\" : ", "}"];

fn every(group: &mut Group) {
    for levels in 0..=DEEPEST + 1 {
        for patch_levels in 0..=DEEPEST + 1 {
            let value = ["null", "1", "[]", "\"\""][(levels + patch_levels) % 4];
            group.merge_exactly(nest(levels, PLAIN, "1"), nest(patch_levels, SPELLED, value));
        }
    }
}

/// Members around the path, so that the rest of each level is written behind what is inside.
const CROWDED: [[&str; 2]; 4] = [
    [r#"{"c":1,"a":"#, r#","b":null}"#],
    [r#"{"a":"#, r#","0":{"y":1,"x":2},"d":[{}]}"#],
    [r#"{"b":2,"\u0061":"#, "}"],
    [r#"{"9":0,"8":0,"7":0,"6":0,"5":0,"4":0,"a":"#, r#","z":0,"y":0,"x":0}"#],
];

/// Equal down to a depth, where the patch has another name, another kind or nothing.
fn parting(group: &mut Group) {
    for levels in [1, 2, 3, 20, 64] {
        for around in CROWDED {
            let levels = if around == CROWDED[1] { levels.min(63) } else { levels };
            let target = nest(levels, around, "1.0");
            for depth in (0..=levels.min(63)).filter(|depth| levels < 64 || depth % 7 == 0) {
                for end in ["null", "2", r#"{"n":{}}"#, r#"{"c":null}"#, "{}", r#"{"a":null,"b":{"c":null}}"#] {
                    let patch = nest(depth, CROWDED[depth % 4], end);
                    group.merge_exactly(&target, patch);
                }
            }
        }
    }
}

fn arrays(group: &mut Group) {
    for objects in 0..=DEEPEST {
        for end in ["", "null", "{}", "{\"a\":null}"] {
            let left = DEEPEST - objects;
            for arrays in [left, left + 1, left.saturating_sub(1), left / 2] {
                let patch = nest(objects, PLAIN, &nest(arrays, ["[", "]"], end));
                group.merge("{}", &patch);
                group.merge(&patch, nest(objects, SPELLED, "{\"b\":null}"));
            }
        }
    }
}

/// A value around another one, under one of two names and among siblings.
fn wrapped(inner: &str, random: &mut Random) -> String {
    let siblings = ["10", "{}", "null", "[null]", r#""\t""#, r#"{"q":0.0,"p":null}"#, r#"{"q":{"r":null}}"#];
    let mut names = ["d", "b", "ab", "\\u0041", "", "~", "c", "e", "f"];
    random.shuffle(&mut names);
    let most = random.pick(&[&3, &9]);
    let count = random.below(*most);
    let mut members: Vec<String> =
        names[..count].iter().map(|name| format!("\"{name}\":{}", random.pick(&siblings))).collect();
    let name = random.pick(&["m", "m", "\\u006d", "m", "n"]);
    members.insert(random.below(count + 1), format!("\"{name}\" : {inner}"));
    format!("{{{}}}", members.join(", "))
}

fn mixed(group: &mut Group) {
    let mut random = Random::new(91);
    for round in 0..600 {
        let mut texts = ["1e-3", "null"].map(String::from);
        for (at, text) in texts.iter_mut().enumerate() {
            for _ in 0..[2, 3, 5, 20, 60, 61, 62, 63][(round / [1, 8][at]) % 8] {
                *text = wrapped(text, &mut random);
            }
        }
        let [target, patch] = &texts;
        group.merge(target, patch);
    }
}
