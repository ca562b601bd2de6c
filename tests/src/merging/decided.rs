//! Places that 01 leaves open, as docs/DECISIONS.md reads them.

use crate::answer::Answer;
use crate::group::{Group, Test};
use crate::reading::decided::REFUSED;

pub const TESTS: [Test; 2] =
    [("merges that were decided", merged), ("places of refusals that were decided, in target and in patch", refused)];

/// Target, patch and result.
const MERGED: [[&str; 3]; 24] = [
    ["1", "null", "null"],
    [r#"{"a":1}"#, " null ", "null"],
    ["null", "{}", "{}"],
    ["[{}]", "{}", "{}"],
    ["{}", r#"{"a":[{"b":null}]}"#, r#"{"a":[{"b":null}]}"#],
    [r#"{"a":[{"b":1}]}"#, r#"{"a":[{"b":null}]}"#, r#"{"a":[{"b":null}]}"#],
    ["1", r#"[{"b":null},null]"#, r#"[{"b":null},null]"#],
    [r#"{"a":null}"#, r#"{"a":{"b":null,"c":1}}"#, r#"{"a":{"c":1}}"#],
    [r#"{"a":{"b":null}}"#, r#"{"a":{}}"#, r#"{"a":{"b":null}}"#],
    [r#"{"a":{"b":null}}"#, r#"{"a":{"b":{}}}"#, r#"{"a":{"b":{}}}"#],
    [r#"{"a":1}"#, r#"{"a":{}}"#, r#"{"a":{}}"#],
    [r#"{"a":{"b":1}}"#, r#"{"a":{}}"#, r#"{"a":{"b":1}}"#],
    [r#"{"a":{"b":1}}"#, r#"{"a":{"b":null}}"#, r#"{"a":{}}"#],
    [r#"{"a":{"b":1}}"#, r#"{"a":[]}"#, r#"{"a":[]}"#],
    [r#"{"a":1}"#, r#"{"a":1.0}"#, r#"{"a":1}"#],
    [r#"{"a":100,"b":-0.0}"#, r#"{"c":1.50}"#, r#"{"a":1e2,"b":0,"c":15e-1}"#],
    [r#"{"\u0061":1}"#, r#"{"a":null}"#, "{}"],
    [r#"{"\\u0061":1}"#, r#"{"\u0061":null}"#, r#"{"\\u0061":1}"#],
    [r#"{"\/":1}"#, r#"{"/":null}"#, "{}"],
    ["{\"\x7f\":1}", r#"{"\u007F":2}"#, r#"{"\u007f":2}"#],
    [r#"{"\ud83d\ude00":1}"#, r#"{"\uD83D\uDE00":null,"\uffff":2,"\ue000":3}"#, r#"{"\ue000":3,"\uffff":2}"#],
    [r#"{"":1}"#, r#"{"":null,"\u0000":2}"#, r#"{"\u0000":2}"#],
    [r#"{"b":1}"#, r#"{"aa":3,"a":2}"#, r#"{"a":2,"aa":3,"b":1}"#],
    [r#"{"a":1,"A":2}"#, r#"{"A":null}"#, r#"{"a":1}"#],
];

fn merged(group: &mut Group) {
    for [target, patch, result] in MERGED {
        group.merge_known(target, patch, result);
    }
}

/// Whatever the patch is, the target is refused first.
fn refused(group: &mut Group) {
    for (text, number, place) in REFUSED {
        for length in [0, 100] {
            for other in [&b"{}"[..], b"1", b"", b"x", text] {
                group.merge_refused([text, other], length, Answer::refused(number, 1, place));
            }
            for other in [&b"{}"[..], b"1", br#"{"a":{"b":1}}"#] {
                group.merge_refused([other, text], length, Answer::refused(number, 2, place));
            }
        }
    }
}
