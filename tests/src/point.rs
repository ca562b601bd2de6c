//! Pointers that name given values: a token for each name and each index on the way.

use crate::reference::{Inside, Tree};

/// The token of a name, behind its `/`. A name with a unit above 7F has none.
pub fn token(name: &[u16]) -> Option<Vec<u8>> {
    let mut out = vec![b'/'];
    for &unit in name {
        match unit {
            0x7E => out.extend_from_slice(b"~0"),
            0x2F => out.extend_from_slice(b"~1"),
            _ => out.push(u8::try_from(unit).ok().filter(u8::is_ascii)?),
        }
    }
    Some(out)
}

/// The token of a name that is ASCII.
pub fn ascii_token(name: &str) -> Vec<u8> {
    token(&name.encode_utf16().collect::<Vec<u16>>()).expect("an ASCII name")
}

/// Every value that a pointer can name, in no matter what order, with that pointer.
pub fn every(root: &Tree) -> Vec<(Vec<u8>, &Tree)> {
    let mut all = Vec::new();
    add(root, Vec::new(), &mut all);
    all
}

fn add<'a>(value: &'a Tree, pointer: Vec<u8>, all: &mut Vec<(Vec<u8>, &'a Tree)>) {
    let below = |token: Vec<u8>| [&pointer[..], &token].concat();
    match &value.inside {
        Inside::Scalar(_) => {}
        Inside::Array(elements) => {
            for (index, element) in elements.iter().enumerate() {
                add(element, below(format!("/{index}").into_bytes()), all);
            }
        }
        Inside::Object(members) => {
            for (name, member) in members {
                if let Some(token) = token(name) {
                    add(member, below(token), all);
                }
            }
        }
    }
    all.push((pointer, value));
}
