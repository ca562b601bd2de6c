//! Results around the ceiling of 1,048,576 bytes (13), which goes before a short output (12), and the longest texts.

use super::compare::least;
use crate::answer::Answer;
use crate::group::{Group, Test};

pub const TESTS: [Test; 5] = [
    ("results one byte around the longest, of each kind that grows, by the merge", around),
    ("13 goes before 12, with the length needed, by the merge", first),
    ("the longest results of all, by the merge", of_all),
    ("long texts of which little is left", little_left),
    ("targets and patches around the longest", texts),
];

const LONGEST: usize = 1_048_576;

/// An object of one member, whose string has so many letters and so many characters that grow by six.
fn member(name: &str, letters: usize, growing: usize) -> String {
    format!("{{\"{name}\":\"{}{}\"}}", "x".repeat(letters), "\x7f".repeat(growing))
}

/// A pair whose result has this many bytes: the target has so many growing characters, and the patch the rest.
fn pair(length: usize, in_target: usize) -> [String; 2] {
    let room = length - r#"{"a":"","b":""}"#.len() - 6 * in_target;
    let in_patch = if in_target == 0 { room / 6 } else { room / 12 };
    [member("b", room - 6 * in_patch, in_target), member("a", 0, in_patch)]
}

fn bytes(texts: &[String; 2]) -> [&[u8]; 2] {
    [texts[0].as_bytes(), texts[1].as_bytes()]
}

fn around(group: &mut Group) {
    for in_target in [0, 80_000, 174_760] {
        for length in [LONGEST - 1, LONGEST, LONGEST + 1] {
            let texts = pair(length, in_target);
            group.merge_each(bytes(&texts), least(bytes(&texts)), |needed| {
                assert!(needed == length, "{needed} bytes instead of {length}");
                vec![needed - 1, needed, needed + 1]
            });
        }
    }
}

fn first(group: &mut Group) {
    for (length, number) in [(LONGEST, 12), (LONGEST + 1, 13), (2 * LONGEST, 13)] {
        let texts = pair(length, 100_000);
        group.merge_refused(bytes(&texts), 0, Answer::refused(number, 3, length));
        group.merge_each(bytes(&texts), least(bytes(&texts)), |_| vec![LONGEST - 1, LONGEST, 2 * LONGEST]);
    }
}

/// Both texts as long as can be and nearly all of them growing by six: over 12 million bytes.
fn of_all(group: &mut Group) {
    let growing = LONGEST - r#"{"a":""}"#.len();
    let (one, two) = (member("b", 0, growing), member("a", 0, growing));
    let needed = 12 * growing + r#"{"a":"","b":""}"#.len();
    group.merge_refused([one.as_bytes(), two.as_bytes()], needed, Answer::refused(13, 3, needed));
    group.merge_each([one.as_bytes(), b"{}"], [4 * LONGEST, 8], |_| vec![LONGEST]);
    group.merge_each([b"[]", two.as_bytes()], [8, 4 * LONGEST], |_| vec![LONGEST]);
}

/// What is removed or replaced doesn't count to the length.
fn little_left(group: &mut Group) {
    let growing = LONGEST - r#"{"a":""}"#.len();
    let long = member("a", 0, growing);
    for patch in [r#"{"\u0061":null}"#, r#"{"a":[null],"b":{}}"#] {
        group.merge(&long, patch);
    }
    let nulls =
        format!("{{{}\"z\":null}}", (0..40_000).map(|number| format!("\"{number}\":null,")).collect::<String>());
    group.merge_exactly(&nulls, &nulls);
    group.merge_exactly("{}", &nulls);
}

/// Both lengths are judged before anything is written, the target's first, and each before its table.
fn texts(group: &mut Group) {
    for length in [LONGEST, LONGEST + 1] {
        let text = format!("{}{{}}", " ".repeat(length - 2));
        let wrong = format!("{}x", " ".repeat(length - 1));
        for long in [text.as_bytes(), wrong.as_bytes()] {
            for other in [b"{}", b"{]"] {
                group.merge_each([long, other], [4 * LONGEST, 8], |_| vec![10]);
                group.merge_each([other, long], [8, 4 * LONGEST], |_| vec![10]);
            }
            for words in [4 * LONGEST - 1, 0] {
                group.merge_each([long, b"{}"], [words, 8], |_| vec![10]);
                group.merge_each([b"{}", long], [8, words], |_| vec![10]);
            }
            group.merge_each([b"{}", long], [7, 0], |_| vec![10]);
        }
    }
}
