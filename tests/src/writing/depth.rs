//! Containers at every depth up to 64, with siblings before and behind, and objects whose order is decided at each depth.

use crate::group::{Group, Test};
use crate::random::Random;

pub const TESTS: [Test; 3] = [
    ("containers of one kind at every depth, by the writer", one_kind),
    ("objects to be sorted at every depth", sorted),
    ("containers and siblings of mixed kinds down to full depth", mixed),
];

const DEEPEST: usize = 64;

fn one_kind(group: &mut Group) {
    for depth in 1..=DEEPEST + 1 {
        for inside in ["", " ", "\n1 ", "{}", "[ ]", "\"\\n\""] {
            group.write(format!("{}{inside}{}", "[".repeat(depth), "]".repeat(depth)).as_bytes());
        }
        for inside in ["0", "-0.0", "{ }", "[]"] {
            group.write(format!("{}{inside}{}", "{\"a\": ".repeat(depth), "}".repeat(depth)).as_bytes());
        }
    }
}

/// Objects of three members, of which the least, the middle or the greatest name holds the next object.
fn sorted(group: &mut Group) {
    let around = [
        [r#"{"c":1,"a":"#, r#","b":2}"#],
        [r#"{"b":"#, r#","c":[3,2],"a":"\n"}"#],
        [r#"{"b":{"y":1,"x":2},"a":[{}],"\u0063":"#, "}"],
    ];
    for depth in 1..=DEEPEST {
        for [before, behind] in around {
            group.write(format!("{}1.0{}", before.repeat(depth), behind.repeat(depth)).as_bytes());
            group.write(format!("[{}1.0{}]", before.repeat(depth), behind.repeat(depth)).as_bytes());
        }
    }
}

/// A value around another one, which stands behind and before some siblings.
fn wrapped(inner: &str, random: &mut Random) -> String {
    let siblings = ["10", "{}", "[]", "\"\\t\"", "null", "{\"q\":0.0,\"p\":[1]}", "[true,{\"z\":1,\"\\u0061\":2}]"];
    let mut items: Vec<String> = (0..random.below(4)).map(|_| random.pick(&siblings).into()).collect();
    items.insert(random.below(items.len() + 1), inner.into());
    if random.one_in(3) {
        return format!("[{}]", items.join(","));
    }
    let mut names = ["d", "b", "a", "c", "ab", "\\u0041"];
    random.shuffle(&mut names);
    let members: Vec<String> = items.iter().zip(names).map(|(item, name)| format!("\"{name}\" : {item}")).collect();
    format!("{{{}}}", members.join(", "))
}

fn mixed(group: &mut Group) {
    let mut random = Random::new(52);
    for round in 0..1500 {
        let mut text = String::from("1e-3");
        for _ in 0..[2, 5, 20, 61, 62, 63, 64, 65][round % 8] {
            text = wrapped(&text, &mut random);
        }
        group.write(text.as_bytes());
    }
}
