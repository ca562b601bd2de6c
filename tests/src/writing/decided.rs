//! Places that 01 leaves open, as docs/DECISIONS.md reads them.

use crate::answer::Answer;
use crate::group::{Group, Test};
use crate::reading::decided::REFUSED;

pub const TESTS: [Test; 2] = [
    ("places of canonical texts that were decided", written),
    ("places of refusals that were decided, by the writer", refused),
];

/// Text and canonical text.
const WRITTEN: [(&str, &str); 16] = [
    (r#""\/""#, r#""/""#),
    (r#""\u002f\u002F/""#, r#""///""#),
    ("\"\x7f\"", r#""\u007f""#),
    (r#""\u007F~\u007e""#, r#""\u007f~~""#),
    (r#""\b\f\n\r\t""#, r#""\u0008\u000c\u000a\u000d\u0009""#),
    (r#""\u0022\"\u005c\\\u005C""#, r#""\"\"\\\\\\""#),
    (r#""\uD83D\uDE00""#, r#""\ud83d\ude00""#),
    (r#""\uDE00x\uD83D""#, r#""\ude00x\ud83d""#),
    (r#"{"\uffff":1,"\ud83d\ude00":2,"\ue000":3}"#, r#"{"\ud83d\ude00":2,"\ue000":3,"\uffff":1}"#),
    (r#"{"\u007f":1,"\u0080":2,"~":3,"\u001f":4," ":5}"#, r#"{"\u001f":4," ":5,"~":3,"\u007f":1,"\u0080":2}"#),
    (r#"{"\\":1,"]":2,"[":3,"\"":4,"!":5}"#, r#"{"!":5,"\"":4,"[":3,"\\":1,"]":2}"#),
    (r#"{"\u0062":1,"a":2,"\u0061a":3}"#, r#"{"a":2,"aa":3,"b":1}"#),
    (r#"{"a":1,"":2,"\u0000":3}"#, r#"{"":2,"\u0000":3,"a":1}"#),
    ("[ ]", "[]"),
    ("{\n}", "{}"),
    (" [ null , true , false ] ", "[null,true,false]"),
];

fn written(group: &mut Group) {
    for (text, canonical) in WRITTEN {
        group.write_known(text.as_bytes(), canonical.as_bytes());
    }
}

fn refused(group: &mut Group) {
    for (text, number, place) in REFUSED {
        for length in [0, 100] {
            group.write_refused(text, length, Answer::refused(number, 1, place));
        }
    }
}
