//! Values of a text by number, by pointer, and by what they stand in.

use nibrocate::Document;

#[test]
fn the_records_of_01s_whole_case() {
    let document = Document::read(br#"{"a":[1,true]}"#).unwrap();
    let ranges: Vec<_> = (0..4).map(|number| document.value(number).unwrap().range()).collect();
    assert_eq!(ranges, [0..14, 5..13, 6..7, 8..12]);
    assert!(document.value(4).is_none());
    let names: Vec<_> = (0..4).map(|number| document.value(number).unwrap().name()).collect();
    assert_eq!(names, [None, Some(&b"a"[..]), None, None]);
}

#[test]
fn a_pointer_and_a_number_lead_to_the_same_value() {
    let document = Document::read(b" {\"x\":{\"y\":[]},\"z\":null} ").unwrap();
    for (pointer, number) in [("", 0), ("/x", 1), ("/x/y", 2), ("/z", 3)] {
        assert_eq!(document.get(pointer).ok(), document.value(number));
    }
    assert_eq!(document.root().bytes(), document.text().trim_ascii());
}

#[test]
fn inside_gives_the_values_right_inside() {
    let document = Document::read(br#"[1,[2,[3]],{"a":{"b":4}},"5"]"#).unwrap();
    let inside =
        |pointer: &str| -> Vec<&[u8]> { document.get(pointer).unwrap().inside().map(|value| value.bytes()).collect() };
    assert_eq!(inside(""), [&b"1"[..], b"[2,[3]]", br#"{"a":{"b":4}}"#, br#""5""#]);
    assert_eq!(inside("/1"), [&b"2"[..], b"[3]"]);
    assert_eq!(inside("/2"), [br#"{"b":4}"#]);
    assert!(inside("/0").is_empty() && inside("/3").is_empty());
    assert_eq!(Document::read(b"[]").unwrap().root().inside().count(), 0);
}

#[test]
fn a_name_is_as_the_text_spells_it() {
    let document = Document::read(br#"{"\"\\":1,"":2,"\u0061\\":3}"#).unwrap();
    let names: Vec<_> = document.root().inside().map(|value| value.name().unwrap()).collect();
    assert_eq!(names, [&br#"\"\\"#[..], b"", br"\u0061\\"]);
    assert_eq!(document.get("/a\\").unwrap().bytes(), b"3");
}
