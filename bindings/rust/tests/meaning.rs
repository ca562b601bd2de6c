//! 01's examples of canonical texts and merges, through the safe interface.

use nibrocate::{canonical, merge};

#[test]
fn canonical_texts() {
    let cases: [(&str, &str); 6] = [
        ("1.5e-998", "15e-999"),
        ("0e999", "0"),
        ("100", "1e2"),
        (r#"{"b":1.50,"a":"\n"}"#, r#"{"a":"\u000a","b":15e-1}"#),
        (r#"{"a":1,"B":2,"aa":3}"#, r#"{"B":2,"a":1,"aa":3}"#),
        (" [ true , -0 ] ", "[true,0]"),
    ];
    for (text, written) in cases {
        assert_eq!(canonical(text.as_bytes()).unwrap(), written.as_bytes(), "{text}");
    }
}

#[test]
fn merges() {
    let cases: [(&str, &str, &str); 5] = [
        ("[1,2]", r#"{"a":"b","c":null}"#, r#"{"a":"b"}"#),
        ("{}", r#"{"a":{"bb":{"ccc":null}}}"#, r#"{"a":{"bb":{}}}"#),
        (r#"{"e":null}"#, r#"{"a":1}"#, r#"{"a":1,"e":null}"#),
        (r#"{"a":1}"#, "null", "null"),
        ("1", r#"{"a":[{"b":null}]}"#, r#"{"a":[{"b":null}]}"#),
    ];
    for (target, patch, result) in cases {
        let merged = merge(target.as_bytes(), patch.as_bytes()).unwrap();
        assert_eq!(merged, result.as_bytes(), "{target} with {patch}");
    }
}
