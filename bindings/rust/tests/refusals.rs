//! Every refusal that a caller can meet, and what it says of itself.

use nibrocate::{canonical, merge, Document, Input, Kind, Refusal, TEXT_BYTES};
use std::collections::HashSet;

/// Number, input and place.
fn told<T>(result: Result<T, Refusal>) -> Option<(u32, Input, usize)> {
    result.err().map(|refusal| (refusal.number(), refusal.input(), refusal.place()))
}

fn read(text: &[u8]) -> Option<(u32, Input, usize)> {
    told(Document::read(text))
}

#[test]
fn the_reader_refuses_each_kind_at_its_place() {
    let cases: [(&[u8], u32, usize); 10] = [
        (b"", 3, 0),
        (b"-", 3, 1),
        (b"01", 4, 1),
        (b"\xef\xbb\xbf1", 4, 0),
        (&[b'['; 64], 3, 64),
        (&[b'['; 65], 5, 64),
        (b"123456789012345678.", 6, 18),
        (b"10e999", 7, 5),
        (br#"{"a":1,"\u0061":2}"#, 8, 14),
        (b"\"\x80", 9, 1),
    ];
    for (text, number, place) in cases {
        assert_eq!(read(text), Some((number, Input::Text, place)), "{text:?}");
        assert_eq!(told(canonical(text)), read(text), "{text:?}");
    }
}

#[test]
fn a_merge_names_the_text_at_fault() {
    assert_eq!(told(merge(b"[1,]", b"01")), Some((4, Input::Target, 3)));
    assert_eq!(told(merge(b"[1]", b"01")), Some((4, Input::Patch, 1)));
    assert_eq!(told(merge(b"1", &[b' '; TEXT_BYTES + 1])), Some((1, Input::Patch, 0)));
}

#[test]
fn a_look_up_names_the_place_in_the_pointer() {
    let document = Document::read(br#"{"foo":["bar","baz"],"":0}"#).unwrap();
    let told = |pointer: &str| document.get(pointer).err().map(|r| (r.number(), r.input(), r.place()));
    assert_eq!(told("/~2"), Some((10, Input::Pointer, 2)));
    assert_eq!(told("foo"), Some((10, Input::Pointer, 0)));
    assert_eq!(told("/foo/01"), Some((11, Input::Pointer, 4)));
    assert_eq!(told("/"), None);
}

#[test]
fn each_kind_has_its_own_number_name_and_sentence() {
    assert_eq!(Kind::ALL.map(Kind::number).to_vec(), (1..=13).collect::<Vec<_>>());
    assert_eq!(Kind::ALL.map(|kind| Kind::of(kind.number())), Kind::ALL.map(Some));
    assert_eq!((Kind::of(0), Kind::of(14)), (None, None));
    assert_eq!(Kind::ALL.iter().map(|kind| kind.name()).collect::<HashSet<_>>().len(), 13);
    let sentences: HashSet<_> = Kind::ALL.iter().map(|kind| kind.sentence()).collect();
    assert_eq!(sentences.len(), 13);
    assert!(sentences.iter().all(|sentence| sentence.ends_with('.') && !sentence.contains("  ")));
}

#[test]
fn a_refusal_passes_as_any_error() {
    fn fails() -> Result<Vec<u8>, Box<dyn std::error::Error + Send + Sync>> {
        Ok(merge(b"{}", b"{\"a\"")?)
    }
    assert_eq!(fails().unwrap_err().to_string(), "unfinished text (refusal 3, byte 4 of the patch)");
}
