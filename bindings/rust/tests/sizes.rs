//! Texts and results on both sides of 1,048,576 bytes: what the crate lends is always long enough.

use nibrocate::{canonical, merge, Document, Input, Kind, TEXT_BYTES};

/// A string of this many bytes 7F, each of which is written as six.
fn growing(characters: usize) -> Vec<u8> {
    [&b"\""[..], &vec![0x7f; characters], b"\""].concat()
}

/// Ones in an array, `bytes` long: an odd number from 3 on.
fn ones(bytes: usize) -> Vec<u8> {
    let mut text = b"1,".repeat(bytes / 2);
    text.insert(0, b'[');
    text[bytes - 1] = b']';
    text
}

#[test]
fn the_longest_text_is_read_and_a_longer_one_refused() {
    let mut text = ones(TEXT_BYTES - 1);
    text.push(b' ');
    assert_eq!(Document::read(&text).unwrap().count(), TEXT_BYTES / 2);
    assert_eq!(canonical(&text).unwrap(), text[..TEXT_BYTES - 1]);
    text.push(b' ');
    for refusal in [Document::read(&text).err(), canonical(&text).err()].map(Option::unwrap) {
        assert_eq!((refusal.kind(), refusal.input(), refusal.place()), (Kind::TextTooLong, Input::Text, 0));
    }
    assert_eq!(merge(&text, b"1").unwrap_err().input(), Input::Target);
}

#[test]
fn short_texts_may_grow_sixfold() {
    for characters in [0, 1, 2, 100] {
        assert_eq!(canonical(&growing(characters)).unwrap().len(), 2 + 6 * characters);
    }
}

#[test]
fn the_longest_result_is_written_and_a_longer_one_refused() {
    let most = (TEXT_BYTES - 2) / 6;
    let fits = canonical(&growing(most)).unwrap();
    assert_eq!(fits.len(), 2 + 6 * most);
    let refusal = canonical(&growing(most + 1)).unwrap_err();
    assert_eq!((refusal.number(), refusal.input(), refusal.place()), (13, Input::Output, 2 + 6 * (most + 1)));
    assert_eq!(refusal.to_string(), "result too long (refusal 13, 1048580 bytes needed)");
}

#[test]
fn a_merge_of_two_long_texts_is_refused_with_the_length_needed() {
    let member = |name: &str| [b"{\"", name.as_bytes(), b"\":", &ones(TEXT_BYTES - 7), b"}"].concat();
    let (target, patch) = (member("a"), member("b"));
    assert_eq!(merge(&target, &member("a")).unwrap(), target);
    let refusal = merge(&target, &patch).unwrap_err();
    assert_eq!((refusal.number(), refusal.input(), refusal.place()), (13, Input::Output, 2 * target.len() - 1));
}
