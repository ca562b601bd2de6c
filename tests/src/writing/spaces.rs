//! Whitespace of every length between all tokens: none of it is written.

use crate::group::{Group, Test};

pub const TESTS: [Test; 1] = [("whitespace of every length at every place, by the writer", every_length)];

const TOKENS: [&str; 23] = [
    "[", "{", "\"b\"", ":", "1", ",", "\"a\"", ":", "[", "]", ",", "\"\"", ":", "{", "}", "}", ",", "null", ",",
    "\" c \"", ",", "-0", "]",
];
const CANONICAL: &str = r#"[{"":{},"a":[],"b":1},null," c ",0]"#;
const LONGEST: usize = 20;

fn every_length(group: &mut Group) {
    for byte in [" ", "\t", "\n", "\r", "\r\n\t "] {
        for length in 0..=LONGEST {
            let gap = &byte.repeat(length)[..length];
            for place in 0..=TOKENS.len() {
                let (before, behind) = TOKENS.split_at(place);
                let text = [&before.concat(), gap, &behind.concat()].concat();
                group.write_known(text.as_bytes(), CANONICAL.as_bytes());
            }
            group.write_known(format!("{gap}{}{gap}", TOKENS.join(gap)).as_bytes(), CANONICAL.as_bytes());
        }
    }
}
