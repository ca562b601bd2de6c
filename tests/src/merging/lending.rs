//! How slices may be lent: as null pointers where they are empty, and one text as target and patch at once.

use super::compare::merged;
use crate::answer::Answer;
use crate::group::{Group, Test};
use crate::library;

pub const TESTS: [Test; 2] =
    [("no memory for the merge", nothing), ("patches that are parts of the target, and targets of the patch", inside)];

/// Nothing at all, and a pair without an output, as null pointers and as slices.
fn nothing(group: &mut Group) {
    for (target, input) in [("", 1), ("1", 2), ("{}", 2)] {
        let answer = library::merge_nothing(target.as_bytes(), &mut vec![0; 4 * target.len()]);
        group.judge(answer == Answer::refused(3, input, 0), || format!("{target}: {answer:?}"));
        group.merge(target, "");
    }
    for (target, patch, needed) in [("1", "{}", 2), ("{\"a\":10}", "{\"b\":\"\x7f\"}", 22), ("[]", "null", 4)] {
        let (mut table, mut patch_table) = (vec![0; 4 * target.len()], vec![0; 4 * patch.len()]);
        let texts = [target.as_bytes(), patch.as_bytes()];
        let answer = library::merge_nowhere(texts, [&mut table, &mut patch_table]);
        group.judge(answer == Answer::refused(12, 3, needed), || format!("{target} with {patch}: {answer:?}"));
    }
}

/// What is only read may be lent twice: each part of a text is merged into the whole, and the whole into it.
fn inside(group: &mut Group) {
    let texts = [
        r#"{"a":{"b":{"a":null,"c":1},"c":[{"a":null}]},"c":null}"#,
        r#"{"b":{"b":{"b":{}}},"":{"":{"":[]}},"a":10}"#,
        r#"[{"x":null},{"x":{"y":2.0}},"{}"]"#,
    ];
    for text in texts.map(str::as_bytes) {
        for start in 0..=text.len() {
            for end in start..=text.len() {
                group.merge_exactly(text, &text[start..end]);
                group.merge_exactly(&text[start..end], text);
            }
        }
        let copy = text.to_vec();
        group.judge(merged(text, text) == merged(text, copy), || text.escape_ascii().to_string());
    }
}
