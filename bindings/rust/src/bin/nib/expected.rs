//! What could stand in the place of a wrong byte, asked of the library: a byte can if the text up to it isn't refused
//! there.

use crate::shown::quoted;
use nibrocate::Document;

/// What could stand behind `start`, whitespace apart, in place of this byte.
pub fn instead_of(byte: u8, start: &[u8]) -> String {
    let can = |next: u8| follows(start, next);
    if can(b'~') {
        return format!("in a string it is written as \\u{byte:04x}");
    }
    if can(b'/') {
        return "expected one of \" \\ / b f n r t u behind the backslash".into();
    }
    if can(b'A') {
        return "expected a hex digit".into();
    }
    let (value, name) = (can(b'"') && can(b't'), can(b'"') && !can(b't'));
    let mut found: Vec<String> = Vec::new();
    let mut add = |apt: bool, what: &str| {
        if apt {
            found.push(what.into())
        }
    };
    add(value, "a value");
    add(name, "a name in quotes");
    add(!value && can(b'1'), "a digit");
    for single in b".e+:,]}arlus" {
        add(can(*single), &quoted(&[*single]));
    }
    add(!value && can(b'-'), &quoted(b"-"));
    add(Document::read(start).is_ok(), "the end of the text");
    format!("expected {}", listed(&found))
}

/// Whether some text begins with `start` and this byte.
fn follows(start: &[u8], next: u8) -> bool {
    Document::read(&[start, &[next]].concat()).map_or_else(|refusal| refusal.place() > start.len(), |_| true)
}

/// The items with commas, and `or` before the last.
fn listed(items: &[String]) -> String {
    match items {
        [front @ .., last] if !front.is_empty() => format!("{} or {last}", front.join(", ")),
        _ => items.concat(),
    }
}

#[cfg(test)]
mod tests {
    use super::*;

    #[test]
    fn in_each_place_of_the_grammar() {
        for (start, expected) in [
            ("", "a value"),
            ("1 ", "the end of the text"),
            ("[", "a value or \"]\""),
            ("[1,", "a value"),
            ("[[]", "\",\" or \"]\""),
            ("{", "a name in quotes or \"}\""),
            ("{\"a\":1,", "a name in quotes"),
            ("{\"a\"", "\":\""),
            ("{\"a\":", "a value"),
            ("{\"a\":{}", "\",\" or \"}\""),
            ("-", "a digit"),
            ("0", "\".\", \"e\" or the end of the text"),
            ("[12", "a digit, \".\", \"e\", \",\" or \"]\""),
            ("123456789012345678", "\"e\" or the end of the text"),
            ("1.", "a digit"),
            ("1e", "a digit, \"+\" or \"-\""),
            ("1e-", "a digit"),
            ("1e-999", "the end of the text"),
            ("\"\\u00", "a hex digit"),
        ] {
            assert_eq!(instead_of(b'?', start.as_bytes()), format!("expected {expected}"), "{start}");
        }
    }

    #[test]
    fn in_each_literal() {
        for literal in ["null", "true", "false"] {
            for length in 1..literal.len() {
                let expected = format!("expected \"{}\"", &literal[length..][..1]);
                assert_eq!(instead_of(b'?', &literal.as_bytes()[..length]), expected);
            }
        }
    }

    #[test]
    fn in_strings() {
        assert_eq!(instead_of(b'\n', b"[\"a"), "in a string it is written as \\u000a");
        assert!(instead_of(b'x', b"\"\\").ends_with("b f n r t u behind the backslash"));
    }
}
