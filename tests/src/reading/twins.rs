//! Names that stand twice among nested objects, beside other faults, and where the text breaks off.

use crate::group::{Group, Test};
use crate::random::Random;
use crate::spell;

pub const TESTS: [Test; 4] = [
    ("twins in nested objects by chance", nested),
    ("twins in outer and inner objects in every order", orders),
    ("twins with every fault at every place", faults),
    ("twins whose colon or value is missing", missing),
];

/// An object whose names come from a few, so that twins abound, in inner objects as well.
fn scarce(random: &mut Random, depth: usize, names: usize) -> String {
    let members: Vec<String> = (0..random.below(4) + 1)
        .map(|_| {
            let number = random.below(names);
            let name = spell::quoted(&spell::units(&"ab".repeat(number)), random);
            let value = match random.below(if depth == 0 { 2 } else { 5 }) {
                0 => "1".into(),
                1 => name.clone(),
                2 => format!("[{}]", scarce(random, depth - 1, names)),
                _ => scarce(random, depth - 1, names),
            };
            format!("{name}:{value}")
        })
        .collect();
    format!("{{{}}}", members.join(","))
}

fn nested(group: &mut Group) {
    let mut random = Random::new(8);
    for round in 0..12_000 {
        let text = scarce(&mut random, round % 4, 4 + round % 60).into_bytes();
        group.read(&text);
        group.read(&text[..random.below(text.len())]);
    }
}

/// An outer object of three members, the middle one an object: any two names of either may be twins.
fn orders(group: &mut Group) {
    let names = ["a", "b", "c", "\\u0061"];
    for choice in 0..4_usize.pow(6) {
        let name = |place: u32| names[choice / 4_usize.pow(place) % 4];
        let inner = format!("{{\"{}\":1,\"{}\":2,\"{}\":3}}", name(0), name(1), name(2));
        for value in [inner.clone(), format!("[0,{inner}]"), format!("[{{\"a\":{inner}}},{{\"a\":0}}]")] {
            let text = format!("{{\"{}\":1,\"{}\":{value},\"{}\":3}}", name(3), name(4), name(5));
            group.read(text.as_bytes());
        }
    }
}

const WITH_TWINS: [&str; 6] = [
    r#"{"a":1,"b":2,"a":3}"#,
    r#"{"a":{"b":1,"b":2},"a":3}"#,
    r#"{"a":{"b":1,"c":2},"a":{"b":1,"b":2}}"#,
    r#"[{"x":[]},{"x":1,"y":"z","\u0078":null}]"#,
    r#"{"a":[{"":1,"":2}],"b":{"c":1},"b":0}"#,
    r#"{"ab":1,"a":2,"abc":{"a":0,"ab":0},"abc":3,"ab":4}"#,
];

fn faults(group: &mut Group) {
    for text in WITH_TWINS.map(str::as_bytes) {
        for place in 0..text.len() {
            let (before, after) = (&text[..place], &text[place + 1..]);
            group.read(before);
            group.read(&[before, after].concat());
            for byte in *b"\x00 \t\"\\/,:{}[]019-+.eEtfnuabc\x7f\x80\xff" {
                group.read(&[before, &[byte], after].concat());
                group.read(&[before, &[byte], &text[place..]].concat());
            }
        }
    }
}

fn missing(group: &mut Group) {
    let behind = ["", " ", ":", ": ", ",", "}", "]", ":}", ":,", ":]", "::", ":1", ":1,", ":1]", ":1}}", "\"", "x"];
    for object in [r#"{"a":1,"a""#, r#"{"a":1,"b":{"a":2,"a""#, r#"[{"":0,"b":[],"""#, r#"{"a":{},"b":{},"\u0061""#] {
        for end in behind {
            group.read(format!("{object}{end}").as_bytes());
            group.read(format!("{}{end}", &object[..object.len() - 1]).as_bytes());
        }
    }
}
