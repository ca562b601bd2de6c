//! Bytes as a terminal can show them: ASCII only, and nothing that moves the cursor.

/// The most characters of a name or a token that are shown.
const MOST: usize = 40;

/// A printable byte as itself, any other as its two hex digits in angle brackets.
pub fn byte(byte: u8) -> String {
    match byte {
        0x20..=0x7e => char::from(byte).to_string(),
        _ => format!("<{byte:02X}>"),
    }
}

/// Bytes in quotes; where they are many, only the first of them and three dots.
pub fn quoted(bytes: &[u8]) -> String {
    let shown: String = bytes.iter().take(MOST).map(|&each| byte(each)).collect();
    let dots = if bytes.len() > MOST { "..." } else { "" };
    format!("\"{shown}{dots}\"")
}

#[cfg(test)]
mod tests {
    use super::*;

    #[test]
    fn only_printable_bytes_stand_as_themselves() {
        assert_eq!(quoted(b" ~\x1f\x7f\x80\xff\n"), "\" ~<1F><7F><80><FF><0A>\"");
    }

    #[test]
    fn many_bytes_are_cut() {
        assert_eq!(quoted(&[b'a'; 40]), format!("\"{}\"", "a".repeat(40)));
        assert_eq!(quoted(&[b'a'; 41]), format!("\"{}...\"", "a".repeat(40)));
    }
}
