//! 01's own examples on writing, those of reading that are refused, and the examples of RFC 8259, section 13.

use crate::answer::Answer;
use crate::group::{Group, Test};
use crate::library;
use crate::reading::examples::REFUSED;

pub const TESTS: [Test; 4] = [
    ("examples of 01 that write", each_edge),
    ("examples of 01 that are refused, by the writer", refused),
    ("whole case of 01, by the writer", whole_case),
    ("examples of RFC 8259, by the writer", rfc),
];

/// Text and canonical text.
const WRITTEN: [(&str, &str); 18] = [
    ("1.5e-998", "15e-999"),
    ("0e999", "0"),
    ("-0", "0"),
    (r#"{"b":1.50,"a":"\n"}"#, r#"{"a":"\u000a","b":15e-1}"#),
    ("100", "1e2"),
    (r#"{"a":1,"B":2,"aa":3}"#, r#"{"B":2,"a":1,"aa":3}"#),
    ("123456789012345678", "123456789012345678"),
    (r#"{"a":[1,true]}"#, r#"{"a":[1,true]}"#),
    (r#"{"foo":["bar","baz"],"":0}"#, r#"{"":0,"foo":["bar","baz"]}"#),
    ("[1,2]", "[1,2]"),
    (r#"{"a":"b","c":null}"#, r#"{"a":"b","c":null}"#),
    ("{}", "{}"),
    (r#"{"a":{"bb":{"ccc":null}}}"#, r#"{"a":{"bb":{"ccc":null}}}"#),
    (r#"{"a":{"bb":{}}}"#, r#"{"a":{"bb":{}}}"#),
    (r#"{"e":null}"#, r#"{"e":null}"#),
    (r#"{"e":null,"a":1}"#, r#"{"a":1,"e":null}"#),
    (r#""\u0061""#, r#""a""#),
    ("0.5", "5e-1"),
];

fn each_edge(group: &mut Group) {
    for (text, canonical) in WRITTEN {
        group.write_known(text.as_bytes(), canonical.as_bytes());
    }
}

fn refused(group: &mut Group) {
    for (text, number, place) in REFUSED {
        for length in [0, 1, 200] {
            group.write_refused(text, length, Answer::refused(number, 1, place));
        }
    }
}

/// Answer, every word and every byte, with no word of the reference.
fn whole_case(group: &mut Group) {
    const NONE: u32 = 4_294_967_295;
    let records = [0, 21, NONE, 3, 5, 9, 1, 2, 15, 19, 10, 3];
    let (mut table, mut out) = ([7; 84], [b'#'; 30]);
    let answer = library::write(br#"{"b":1.50,"a": "\n" }"#, &mut table, &mut out);
    group.accepted += usize::from(answer.number == 0);
    group.judge(answer == Answer::accepted(24), || format!("{answer:?}"));
    group.judge(table[..12] == records, || format!("{:?}", &table[..12]));
    group.judge(table[12..] == [7; 72], || format!("{:?}", &table[12..]));
    group.judge(&out == br####"{"a":"\u000a","b":15e-1}######"####, || out.escape_ascii().to_string());
}

const IMAGE: &str = r#"{
  "Image": {
    "Width":  800,
    "Height": 600,
    "Title":  "View from 15th Floor",
    "Thumbnail": {
      "Url":    "http://www.example.com/image/481989943",
      "Height": 125,
      "Width":  100
    },
    "Animated" : false,
    "IDs": [116, 943, 234, 38793]
  }
}"#;

const CANONICAL_IMAGE: &str = concat!(
    r#"{"Image":{"Animated":false,"Height":6e2,"IDs":[116,943,234,38793],"Thumbnail":{"Height":125,"#,
    r#""Url":"http://www.example.com/image/481989943","Width":1e2},"Title":"View from 15th Floor","Width":8e2}}"#,
);

const CITY: &str = r#"[{ "precision": "zip", "Latitude": 37.7668, "Longitude": -122.3959, "Zip": "94107" }]"#;
const CANONICAL_CITY: &str = r#"[{"Latitude":377668e-4,"Longitude":-1223959e-4,"Zip":"94107","precision":"zip"}]"#;

fn rfc(group: &mut Group) {
    group.write_known(IMAGE.as_bytes(), CANONICAL_IMAGE.as_bytes());
    group.write_known(CITY.as_bytes(), CANONICAL_CITY.as_bytes());
}
