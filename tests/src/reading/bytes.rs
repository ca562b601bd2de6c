//! Every byte value at every place of small texts that together are in every state of the grammar.

use crate::group::{Group, Test};

pub const TESTS: [Test; 4] = [
    ("every byte behind every beginning of small texts", behind),
    ("every byte inserted at every place of small texts", inserted),
    ("every byte put for every byte of small texts", replaced),
    ("every byte left out of small texts", left_out),
];

const SMALL: [&[u8]; 24] = [
    b"null",
    b" true ",
    b"[false]",
    b" [ ] ",
    b"\t{\n}\r",
    b"[1,2,[3]]",
    br#"[ "a" , true ]"#,
    br#"{"a":1}"#,
    br#"{ "a" : 1 , "b" : [ ] }"#,
    br#"{"a":"b","c":{"d":{}}}"#,
    b"-0",
    b"-12.50e+10",
    b"[0.5E-07]",
    b"1e999",
    b"10e-1000",
    b"100e997",
    b"1.5e-998 ",
    b"123456789012345678",
    b"-12345678901.2345678e99",
    br#""ab\"\\\/\b\f\n\r\t~""#,
    br#""\u00aF\uD800x""#,
    br#"{"a":1,"ab":2,"\u0061c":3}"#,
    br#"{"":{"a":[{"a":0}]},"a":{"a":null}}"#,
    br#"{"a":1,"b":2,"a":3}"#,
];

/// The small texts and one of full depth.
fn small() -> Vec<Vec<u8>> {
    let deep = [&[b'['; 62][..], b"{\"a\":[1]}]"].concat();
    SMALL.iter().map(|text| text.to_vec()).chain([deep]).collect()
}

fn behind(group: &mut Group) {
    for text in small() {
        for place in 0..=text.len() {
            with_every_byte(group, &text[..place], b"");
        }
    }
}

fn inserted(group: &mut Group) {
    for text in small() {
        for place in 0..=text.len() {
            with_every_byte(group, &text[..place], &text[place..]);
        }
    }
}

fn replaced(group: &mut Group) {
    for text in small() {
        for place in 0..text.len() {
            with_every_byte(group, &text[..place], &text[place + 1..]);
        }
    }
}

fn with_every_byte(group: &mut Group, before: &[u8], after: &[u8]) {
    for byte in 0..=255 {
        group.read(&[before, &[byte], after].concat());
    }
}

fn left_out(group: &mut Group) {
    for text in small() {
        for place in 0..text.len() {
            group.read(&[&text[..place], &text[place + 1..]].concat());
        }
    }
}
