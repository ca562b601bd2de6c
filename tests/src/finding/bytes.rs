//! Every byte value at every place of small pointers, most of which name something.

use crate::group::{Group, Test};

pub const TESTS: [Test; 3] = [
    ("every byte behind every beginning of small pointers", |group| at_every_place(group, |_, _| b"")),
    ("every byte inserted at every place of small pointers", |group| at_every_place(group, |whole, at| &whole[at..])),
    ("every byte put for every byte of small pointers", |group| {
        at_every_place(group, |whole, at| &whole[whole.len().min(at + 1)..])
    }),
];

const TEXT: &str =
    r#"{"a":[0,{"b~c":[[],"x"],"d/":{"":1}},2,3,4,5,6,7,8,9,10,11],"\u0061b":{"\n":true},"~1":{"0":[{}]},"/~":0}"#;

const SMALL: [&[u8]; 10] = [
    b"",
    b"/",
    b"/a",
    b"/a/1/b~0c/1",
    b"/a/1/d~1/",
    b"/a/11",
    b"/ab/\n",
    b"/~01/0/0",
    b"/~1~0",
    b"/none/~0~1/01/below",
];

/// Puts each byte before each place, and behind it what is said of the whole and the place.
fn at_every_place(group: &mut Group, behind: fn(&[u8], usize) -> &[u8]) {
    for whole in SMALL {
        for place in 0..=whole.len() {
            let pointers = (0..=255).map(|byte| [&whole[..place], &[byte], behind(whole, place)].concat());
            group.find_each(TEXT.as_bytes(), pointers);
        }
    }
}
