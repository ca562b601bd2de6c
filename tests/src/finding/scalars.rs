//! Tokens below scalars and empty containers, which have nothing below them.

use crate::group::{Group, Test};

pub const TESTS: [Test; 1] = [("tokens below scalars and empty containers", below)];

const VALUES: [&str; 16] = [
    "null",
    "true",
    "false",
    "0",
    "-0",
    "12.5e3",
    "123",
    "\"\"",
    "\"0\"",
    "\"abc\"",
    "\"[1]\"",
    "\"{\\\"a\\\":1}\"",
    "[]",
    "{}",
    "[ ]",
    "{\n}",
];
const TOKENS: [&str; 14] =
    ["", "/", "/0", "/1", "/-", "/a", "/length", "//", "/0/0", "/\"\"", "/~0", "/~1", "/null", "/a/b/c"];

/// Alone, and before and behind others that have such values.
fn below(group: &mut Group) {
    for value in VALUES {
        group.find_each(format!(" {value} ").as_bytes(), TOKENS);
        for other in VALUES {
            let array = format!("[{other},{value},{{\"a\":{other}}},[{other}]]");
            group.find_each(array.as_bytes(), TOKENS.map(|token| format!("/1{token}")));
            let object = format!("{{\"0\":{other},\"\":{value},\"a\":[{other}],\"1\":{{\"\":{other}}}}}");
            group.find_each(object.as_bytes(), TOKENS.map(|token| format!("/{token}")));
        }
    }
}
