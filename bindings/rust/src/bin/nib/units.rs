//! What the characters of a string stand for.

/// The 16-bit units of a string's characters, without its quotes. The library has accepted them, so no escape is cut.
pub fn units(characters: &[u8]) -> Vec<u16> {
    let mut units = Vec::new();
    let mut rest = characters.iter();
    while let Some(&byte) = rest.next() {
        units.push(if byte == b'\\' { escaped(&mut rest) } else { byte.into() });
    }
    units
}

/// The unit of an escape, behind its backslash.
fn escaped<'a>(rest: &mut impl Iterator<Item = &'a u8>) -> u16 {
    match rest.next() {
        Some(b'b') => 0x08,
        Some(b't') => 0x09,
        Some(b'n') => 0x0a,
        Some(b'f') => 0x0c,
        Some(b'r') => 0x0d,
        Some(b'u') => rest.take(4).fold(0, |number, &digit| number << 4 | hex(digit)),
        Some(&byte) => byte.into(),
        None => 0,
    }
}

fn hex(digit: u8) -> u16 {
    char::from(digit).to_digit(16).unwrap_or(0) as u16
}

#[cfg(test)]
mod tests {
    use super::*;

    #[test]
    fn escapes_are_resolved() {
        assert_eq!(
            units(br#"a\b\f\n\r\t\"\\\/\u00eF\uD800z"#),
            [0x61, 8, 12, 10, 13, 9, 0x22, 0x5c, 0x2f, 0xef, 0xd800, 0x7a]
        );
    }
}
