//! The token of a JSON pointer that names nothing.

use crate::shown;
use nibrocate::Document;

/// Which token names nothing, and in what. `slash` is where the token's `/` stands.
pub fn token(pointer: &[u8], slash: usize, document: &Document) -> Option<String> {
    let around = document.get(&pointer[..slash]).ok()?;
    let written = pointer[slash + 1..].split(|&byte| byte == b'/').next()?;
    let what = match around.bytes()[0] {
        b'{' => "object",
        b'[' => "array",
        b'"' => "string",
        b'n' | b't' | b'f' => "literal",
        _ => "number",
    };
    let place = match slash {
        0 => "that is the whole text".into(),
        _ => format!("at {}", shown::quoted(&pointer[..slash])),
    };
    let have = match around.inside().count() {
        1 if what == "array" => ", which has 1 element".into(),
        count if what == "array" => format!(", which has {count} elements"),
        _ => String::new(),
    };
    Some(format!("{} names nothing in the {what} {place}{have}", shown::quoted(&plain(written))))
}

/// A token with `~1` and `~0` resolved, each pair read once.
fn plain(token: &[u8]) -> Vec<u8> {
    let mut plain = Vec::new();
    let mut rest = token.iter();
    while let Some(&byte) = rest.next() {
        plain.push(match byte {
            b'~' if rest.next() == Some(&b'1') => b'/',
            byte => byte,
        });
    }
    plain
}

#[cfg(test)]
mod tests {
    use super::*;

    #[test]
    fn each_pair_is_read_once() {
        assert_eq!(plain(b"~01~1~0a"), b"~1/~a");
    }
}
