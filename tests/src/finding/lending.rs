//! How slices may be lent: empty ones at any address, and pointers that are parts of the text.

use crate::answer::Answer;
use crate::group::{Group, Test};
use crate::library;
use crate::part::Part;

pub const TESTS: [Test; 3] = [
    ("empty pointers at any address", any_address),
    ("pointers in no text and no table", nothing),
    ("pointers that are parts of the text", inside),
];

/// An empty slice leads nowhere, be its address null, odd, in no memory at all, or the last there is.
fn any_address(group: &mut Group) {
    let own = group as *const Group as usize;
    for address in [0, 1, 7, 4096, 0x0DEA_DBEE, own, own + 1, 1 << 47, 1 << 63, usize::MAX - 7, usize::MAX] {
        for (text, end) in [("1", 1), ("[1,2]", 5), ("{\"\":{}}", 7)] {
            let found = library::find_whole(text.as_bytes(), &mut vec![0; 4 * text.len()], address);
            let is_whole = found == (Answer::accepted(0), Part { start: 0, end });
            group.judge(is_whole, || format!("{text} at {address:x}: {found:?}"));
        }
        let refused = library::find_whole(b"[1,", &mut [0; 12], address);
        group.judge(refused == (Answer::refused(3, 1, 3), Part::EMPTY), || format!("at {address:x}: {refused:?}"));
    }
}

/// The empty text is refused first, whatever the pointer.
fn nothing(group: &mut Group) {
    for pointer in [&b""[..], b"/", b"~", b"/a/0", b"\xff", &[b'/'; 65_537]] {
        let found = library::find_in_nothing(pointer);
        group.judge(found == (Answer::refused(3, 1, 0), Part::EMPTY), || format!("{found:?}"));
        group.find_with(b"", 0, [pointer]);
    }
}

/// What is only read may be lent twice: every part of a text is looked up in it.
fn inside(group: &mut Group) {
    for text in [r#"{"/a":1,"a":{"/0":"/~0"},"~":["/~1"],"/":"/a/~10"}"#, r#"["/0","/1/0",["//"],"~"]"#, "\"/\"", "1"] {
        let text = text.as_bytes();
        for start in 0..=text.len() {
            group.find_each(text, (start..=text.len()).map(|end| &text[start..end]));
        }
    }
}
