//! Names: every unit in every spelling, names that a token must not take for its own, and units that no token names.

use crate::group::{Group, Test};
use crate::members::numbered;
use crate::point::{ascii_token, token};
use crate::spell;

pub const TESTS: [Test; 5] = [
    ("every unit that can be named, in every spelling", every_unit),
    ("units that no token names", above),
    ("pairs of names and tokens that look alike", alike),
    ("many names in one object, and one of them missing", missing),
    ("names in texts and pointers that are spelled as the other", as_written),
];

/// Names that are made of what pointers, strings and indices are made of.
const ODD: [&str; 58] = [
    "",
    "/",
    "~",
    "//",
    "~~",
    "/~",
    "~/",
    "~0",
    "~1",
    "~01",
    "~10",
    "~00",
    "~11",
    "~0~1",
    "~1~0",
    "~~0",
    "~/0",
    "a/b",
    "a~b",
    "a~0b",
    "a~1b",
    "~2",
    "~a",
    "0",
    "1",
    "00",
    "01",
    "10",
    "-",
    "-1",
    "a",
    "A",
    "aa",
    "ab",
    "aaa",
    "b",
    "a\0",
    "\0",
    "\0a",
    "\n",
    "\\n",
    "\\",
    "\\\\",
    "\"",
    "\\\"",
    "\"a\"",
    "\\u0061",
    "u0061",
    "\t",
    "\x08",
    "\x1f",
    "\x7f",
    " ",
    "a ",
    " a",
    "abcdefgh",
    "abcdefghi",
    "abcdefg~",
];

fn every_unit(group: &mut Group) {
    let mut tokens: Vec<Vec<u8>> = (0..0x80).filter_map(|unit| token(&[unit])).collect();
    tokens.extend((0..0x80).filter_map(|unit| token(&[0x61, unit, 0x7A])));
    for unit in 0..0x80 {
        for spelling in spell::spellings(unit) {
            let text = format!("{{\"x\":0,\"{spelling}\":1,\"a{spelling}z\":[2],\"y{spelling}\":3}}");
            if unit != 0x78 {
                group.find_each(text.as_bytes(), &tokens);
            }
        }
    }
}

/// The unit's low byte, its high byte, its bytes in UTF-8 and its escape are tokens of other names, or malformed.
fn above(group: &mut Group) {
    for unit in 0x80..=0xFFFF_u16 {
        let (lower, upper) = (spell::lower_hex(unit), spell::upper_hex(unit));
        let text = format!("{{\"{lower}\":1,\"a{upper}\":2}}");
        let [high, low] = unit.to_be_bytes();
        let utf_8 = char::from_u32(unit.into()).map_or("~1".into(), String::from);
        let mut pointers = vec![format!("/{utf_8}").into_bytes(), vec![b'/', low], vec![b'/', b'a', low & 0x7F]];
        if unit % 8 == 0 || unit < 0x100 {
            pointers.extend([vec![b'/', high, low], vec![b'/'], b"/a".to_vec(), format!("/{lower}").into_bytes()]);
            pointers.extend([vec![b'/', low & 0x7F], vec![b'/', b'a', high & 0x7F], format!("/a{upper}").into_bytes()]);
        }
        group.find_each(text.as_bytes(), pointers);
    }
}

/// One name alone, in two spellings, with the token of each other name and that name as it stands.
fn alike(group: &mut Group) {
    let mut pointers: Vec<Vec<u8>> = ODD.iter().map(|name| ascii_token(name)).collect();
    pointers.extend(ODD.iter().map(|name| format!("/{name}").into_bytes()));
    for name in ODD {
        let hex = spell::quoted_in_hex(&spell::units(name));
        let longest: String = spell::units(name).iter().map(|&unit| spell::spellings(unit).pop().unwrap()).collect();
        for name in [hex, format!("\"{longest}\"")] {
            group.find_each(format!("{{{name}:[]}}").as_bytes(), &pointers);
            group.find_each(format!("{{\"nearby\":{{{name}:0}},{name}:{{{name}:1}}}}").as_bytes(), &pointers);
        }
    }
}

fn missing(group: &mut Group) {
    let pointers: Vec<Vec<u8>> = ODD.iter().map(|name| ascii_token(name)).collect();
    let quoted: Vec<String> = ODD.iter().map(|name| spell::quoted_in_hex(&spell::units(name))).collect();
    group.find_each(numbered(&quoted).as_bytes(), &pointers);
    for gone in 0..quoted.len() {
        let left = [&quoted[..gone], &quoted[gone + 1..]].concat();
        group.find_each(numbered(&left).as_bytes(), &pointers);
    }
}

/// A name's bytes as they are written between its quotes are a token of another name.
fn as_written(group: &mut Group) {
    for unit in (0..0x80).chain([0x80, 0xE9, 0x161, 0xD800]) {
        for spelling in spell::spellings(unit) {
            let pointers = [format!("/{spelling}"), format!("/a{spelling}"), format!("/\"{spelling}\"")];
            let other = spell::quoted_in_hex(&spell::units(&spelling));
            group.find_each(format!("{{\"{spelling}\":1,\"a{spelling}\":2}}").as_bytes(), &pointers);
            group.find_each(format!("{{{other}:1}}").as_bytes(), &pointers);
        }
    }
}
