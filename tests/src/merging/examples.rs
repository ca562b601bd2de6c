//! 01's own examples on merging, the mistakes it warns of, a whole case, and the examples of RFC 7396.

use crate::answer::Answer;
use crate::group::{Group, Test};
use crate::{library, reference};

pub const TESTS: [Test; 5] = [
    ("examples of 01 that merge", each_edge),
    ("mistakes of 01 that look right, by the merge", mistakes),
    ("whole case of a merge", whole_case),
    ("examples of RFC 7396, appendix A", appendix),
    ("examples of RFC 7396, sections 1 and 3", sections),
];

fn each_edge(group: &mut Group) {
    group.merge_known("[1,2]", r#"{"a":"b","c":null}"#, r#"{"a":"b"}"#);
    group.merge_known("{}", r#"{"a":{"bb":{"ccc":null}}}"#, r#"{"a":{"bb":{}}}"#);
    group.merge_known(r#"{"e":null}"#, r#"{"a":1}"#, r#"{"a":1,"e":null}"#);
}

/// Names compared as bytes (1), a patch object copied as it stands (4), and the target's own nulls dropped (5).
fn mistakes(group: &mut Group) {
    let merges = [
        (r#"{"a":1,"b":2}"#, r#"{"\u0061":null}"#, r#"{"b":2}"#),
        (r#"{"\u0061":{"x":1}}"#, r#"{"a":{"y":2}}"#, r#"{"a":{"x":1,"y":2}}"#),
        ("{}", r#"{"a":{"b":null}}"#, r#"{"a":{}}"#),
        (r#"{"c":0}"#, r#"{"a":{"b":null,"d":{"e":null,"f":1}}}"#, r#"{"a":{"d":{"f":1}},"c":0}"#),
        (r#"{"a":7}"#, r#"{"a":{"b":null}}"#, r#"{"a":{}}"#),
        (r#"{"a":[1]}"#, r#"{"a":{"b":null}}"#, r#"{"a":{}}"#),
        ("null", r#"{"a":null}"#, "{}"),
        (r#"{"e":null,"f":{"g":null}}"#, "{}", r#"{"e":null,"f":{"g":null}}"#),
        (r#"{"e":null,"f":{"g":null}}"#, r#"{"f":{"h":1}}"#, r#"{"e":null,"f":{"g":null,"h":1}}"#),
        (r#"{"e":null,"f":null}"#, r#"{"f":null}"#, r#"{"e":null}"#),
    ];
    for (target, patch, result) in merges {
        group.merge_known(target, patch, result);
    }
}

/// Answer, every word and every byte, with no word of the reference.
fn whole_case(group: &mut Group) {
    const NONE: u32 = 4_294_967_295;
    let records = [0, 20, NONE, 5, 5, 10, 1, 4, 6, 7, NONE, 3, 8, 9, NONE, 4, 15, 19, 11, 5];
    let patch_records = [0, 28, NONE, 4, 10, 20, 1, 3, 15, 19, 11, 3, 25, 27, 21, 4];
    let texts: [&[u8]; 2] = [br#"{"b":[1,2],"a":null}"#, br#"{"\u0062":{"x":null},"c":10}"#];
    for (length, known) in [(30, Answer::accepted(25)), (24, Answer::refused(12, 3, 25))] {
        let (mut table, mut patch_table, mut out) = ([7; 85], [7; 114], vec![b'#'; length]);
        let answer = library::merge(texts, [&mut table, &mut patch_table], &mut out);
        group.accepted += usize::from(answer.number == 0);
        group.judge(answer == known, || format!("{answer:?}"));
        group.judge(table[..20] == records, || format!("{:?}", &table[..20]));
        group.judge(table[20..] == [7; 65], || format!("{:?}", &table[20..]));
        group.judge(patch_table[..16] == patch_records, || format!("{:?}", &patch_table[..16]));
        group.judge(patch_table[16..] == [7; 98], || format!("{:?}", &patch_table[16..]));
        let known_out = if length == 30 { br##"{"a":null,"b":{},"c":1e1}#####"## } else { &[b'#'; 30] };
        group.judge(out == known_out[..length], || out.escape_ascii().to_string());
    }
}

/// Original, patch and result.
const APPENDIX: [[&str; 3]; 15] = [
    [r#"{"a":"b"}"#, r#"{"a":"c"}"#, r#"{"a":"c"}"#],
    [r#"{"a":"b"}"#, r#"{"b":"c"}"#, r#"{"a":"b", "b":"c"}"#],
    [r#"{"a":"b"}"#, r#"{"a":null}"#, r#"{}"#],
    [r#"{"a":"b", "b":"c"}"#, r#"{"a":null}"#, r#"{"b":"c"}"#],
    [r#"{"a":["b"]}"#, r#"{"a":"c"}"#, r#"{"a":"c"}"#],
    [r#"{"a":"c"}"#, r#"{"a":["b"]}"#, r#"{"a":["b"]}"#],
    [r#"{"a": { "b": "c"} }"#, r#"{"a": { "b": "d", "c": null} }"#, r#"{"a": { "b": "d" } }"#],
    [r#"{"a": [ {"b":"c"} ] }"#, r#"{"a": [1]}"#, r#"{"a": [1]}"#],
    [r#"["a","b"]"#, r#"["c","d"]"#, r#"["c","d"]"#],
    [r#"{"a":"b"}"#, r#"["c"]"#, r#"["c"]"#],
    [r#"{"a":"foo"}"#, "null", "null"],
    [r#"{"a":"foo"}"#, r#""bar""#, r#""bar""#],
    [r#"{"e":null}"#, r#"{"a":1}"#, r#"{"e":null, "a":1}"#],
    ["[1,2]", r#"{"a":"b", "c":null}"#, r#"{"a":"b"}"#],
    ["{}", r#"{"a": {"bb": {"ccc": null}}}"#, r#"{"a": {"bb": {}}}"#],
];

/// The result is compared after it is written canonically, by the reference and by the library.
fn merge_written(group: &mut Group, [original, patch, result]: [&str; 3]) {
    let canonical = String::from_utf8(reference::canonical(result.as_bytes())).expect("a canonical text is ASCII");
    group.merge_known(original, patch, &canonical);
    let (mut table, mut out) = (vec![0; 4 * result.len()], vec![0; 6 * result.len()]);
    let written = library::write(result.as_bytes(), &mut table, &mut out).count as usize;
    let merged = super::compare::merged(original, patch);
    group.judge(merged.as_deref() == Some(&out[..written]), || format!("{original} with {patch}"));
}

fn appendix(group: &mut Group) {
    for example in APPENDIX {
        merge_written(group, example);
    }
}

const SECTION_1: [&str; 3] = [
    r#"{ "a": "b", "c": { "d": "e", "f": "g" } }"#,
    r#"{ "a":"z", "c": { "f": null } }"#,
    r#"{ "a": "z", "c": { "d": "e" } }"#,
];

const SECTION_3: [&str; 3] = [
    r#"{
  "title": "Goodbye!",
  "author" : {
    "givenName" : "John",
    "familyName" : "Doe"
  },
  "tags":[ "example", "sample" ],
  "content": "This will be unchanged"
}"#,
    r#"{
  "title": "Hello!",
  "phoneNumber": "+01-123-456-7890",
  "author": {
    "familyName": null
  },
  "tags": [ "example" ]
}"#,
    r#"{
  "title": "Hello!",
  "author" : {
    "givenName" : "John"
  },
  "tags": [ "example" ],
  "content": "This will be unchanged",
  "phoneNumber": "+01-123-456-7890"
}"#,
];

fn sections(group: &mut Group) {
    merge_written(group, SECTION_1);
    merge_written(group, SECTION_3);
}
