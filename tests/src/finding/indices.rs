//! Indices of arrays: every one there is, the first that isn't, and numbers of any size and spelling.

use crate::group::{Group, Test};
use crate::random::Random;

pub const TESTS: [Test; 6] = [
    ("every index of arrays of every length, and some behind", every),
    ("tokens that are nearly an index", nearly),
    ("indices that are equal to small ones in some bits", wrapped),
    ("indices of up to thousands of digits", digits),
    ("indices by chance", by_chance),
    ("the largest arrays", largest),
];

/// An array of elements of all sizes, each of which has something of its own.
fn array(length: usize) -> String {
    let element = |index: usize| match index % 5 {
        0 => format!("{index}"),
        1 => format!("[{index},[],0]"),
        2 => format!(" {{ \"0\" : [{index}] }} "),
        3 => "\"\"".into(),
        _ => format!("[[{{\"1\":{index}}}]]"),
    };
    let elements: Vec<String> = (0..length).map(element).collect();
    format!("[{}]", elements.join(","))
}

fn every(group: &mut Group) {
    for length in 0..=120 {
        let pointers = (0..length + 12).flat_map(|index| {
            [format!("/{index}"), format!("/{index}/0"), format!("/{index}/0/0/1"), format!("/0{index}")]
        });
        group.find_each(array(length).as_bytes(), pointers);
    }
}

fn nearly(group: &mut Group) {
    let tokens = [
        "", "-", "--", "-0", "-1", "+1", "00", "01", "001", "0x1", "1e0", "1.0", ".1", "1.", " 1", "1 ", "1\n", "1\0",
        "\0", "~0", "~01", "1~0", "1~1", "~10", "a", "1a", "a1", "1:", ":", "/", "1/", "//1", "1,2", "[1]", "\"1\"",
        "%31", "\\u0031", "*", "last", "length", "١", "1_0", "1'0", "0b1", "0o1", "1u", "1:2", "..", "9:", "1;", "0:",
        "0;0",
    ];
    let in_objects =
        r#"{"":0,"-":1,"00":2,"01":3,"1.0":4,"1e0":5," 1":6,"1~":7,"1/":8,"1:":9,"\"1\"":10,"0":{"-":11}}"#;
    for text in [&array(0), &array(1), &array(2), &array(3), &array(12), &array(120), in_objects] {
        group.find_each(text.as_bytes(), tokens.map(|token| format!("/{token}")));
        group.find_each(text.as_bytes(), tokens.map(|token| format!("/1/{token}")));
    }
}

/// A small index and multiples of powers of 2 and 10, as a machine might lose them.
fn wrapped(group: &mut Group) {
    let mut pointers: Vec<String> = Vec::new();
    for index in 0..6_u128 {
        for power in 3..=120 {
            for factor in [1, 2, 3, 255] {
                pointers.push(format!("/{}", (factor << power) + index));
                pointers.push(format!("/{}", (factor << power) - index));
            }
        }
        for power in 1..=37 {
            pointers.push(format!("/{}", 10_u128.pow(power) + index));
        }
    }
    let known = ["340282366920938463463374607431768211456", "340282366920938463463374607431768211457"];
    pointers.extend(known.map(|digits| format!("/{digits}")));
    for length in [0, 1, 5, 120] {
        group.find_each(array(length).as_bytes(), &pointers);
    }
}

/// 10 to the 32 is a multiple of 2 to the 32, and so on: the last digits alone are an index.
fn digits(group: &mut Group) {
    let mut pointers = Vec::new();
    for zeros in (0..=200).chain([1000, 4094, 9999, 65_000, 65_533]) {
        for end in ["", "0", "1", "3"] {
            for first in ["1", "2", "9", "0", ""] {
                pointers.push(format!("/{first}{}{end}", "0".repeat(zeros)));
            }
        }
        pointers.push(format!("/{}", "9".repeat(zeros)));
        pointers.push(format!("/1{}-", "0".repeat(zeros)));
        pointers.push(format!("/{}/0", "1234567890".repeat(zeros / 10 + 1)));
    }
    for length in [0, 2, 11] {
        group.find_each(array(length).as_bytes(), &pointers);
    }
}

fn by_chance(group: &mut Group) {
    let mut random = Random::new(60);
    for round in 0..300 {
        let length = random.below(1 + round);
        let pointers: Vec<String> = (0..40)
            .map(|_| {
                let index = random.below(2 * length + 2) >> random.below(6);
                let extra = random.pick(&["", "", "", "", "0", "9", "/0", "/1", "/", "/0/0"]);
                format!("/{index}{extra}")
            })
            .collect();
        group.find_each(array(length).as_bytes(), &pointers);
    }
}

/// As many elements as a text can have, and ten thousand with more inside.
fn largest(group: &mut Group) {
    let most = format!("[{}0]", "0,".repeat(524_286));
    let near = [0, 1, 65_535, 65_536, 262_144, 524_285, 524_286, 524_287, 524_288, 1_048_576, 2_097_152];
    group.find_each(most.as_bytes(), near.map(|index| format!("/{index}")));
    let text = array(10_000);
    let tokens = (0..40).map(|step| 9_990 - 256 * step + step % 3).chain(9_994..10_010);
    group.find_each(text.as_bytes(), tokens.map(|index| format!("/{index}")));
}
