//! The line around a place, with a caret under its byte.

use crate::shown;

/// How many characters are shown on each side of the caret.
const SIDE: usize = 36;

/// Line and column of a place, both from 1. A line feed belongs to the line that it ends; columns count bytes.
pub fn line_and_column(text: &[u8], place: usize) -> (usize, usize) {
    let line = 1 + text[..place].iter().filter(|&&byte| byte == b'\n').count();
    (line, 1 + place - line_start(text, place))
}

/// Two lines: the text around the place, and a caret under the byte there, or behind the last one.
/// Nothing where the line is empty.
pub fn excerpt(text: &[u8], place: usize) -> String {
    let start = line_start(text, place).max(place.saturating_sub(SIDE + 1));
    let before: Vec<String> = text[start..place].iter().map(|&byte| quiet(byte)).collect();
    let mut after: Vec<String> = line_rest(text, place).iter().take(SIDE).map(|&byte| quiet(byte)).collect();
    if let Some(&byte) = text.get(place) {
        after.insert(0, shown::byte(byte));
    }
    if before.is_empty() && after.is_empty() {
        return String::new();
    }
    let left = fitting(before.iter().rev());
    let right = fitting(after.iter());
    let lead = if left < before.len() { "..." } else { "" };
    let tail = if right < after.len() { "..." } else { "" };
    let front = format!("  {lead}{}", before[before.len() - left..].concat());
    format!("{front}{}{tail}\n{}^\n", after[..right].concat(), " ".repeat(front.len()))
}

/// A byte beside the caret: a tab is shown as one blank, so that indented lines stay readable.
fn quiet(byte: u8) -> String {
    shown::byte(if byte == b'\t' { b' ' } else { byte })
}

fn line_start(text: &[u8], place: usize) -> usize {
    text[..place].iter().rposition(|&byte| byte == b'\n').map_or(0, |feed| feed + 1)
}

/// What follows the byte at the place on its line, without the line's end.
fn line_rest(text: &[u8], place: usize) -> &[u8] {
    if place >= text.len() || text[place] == b'\n' {
        return &[];
    }
    let rest = &text[place + 1..];
    match rest.iter().position(|&byte| byte == b'\n') {
        Some(feed) => rest[..feed].strip_suffix(b"\r").unwrap_or(&rest[..feed]),
        None => rest,
    }
}

/// How many of these stand within `SIDE` characters, and at least one where there is one.
fn fitting<'a>(cells: impl Iterator<Item = &'a String>) -> usize {
    let ends = cells.scan(0, |width, cell| {
        *width += cell.len();
        Some(*width)
    });
    ends.enumerate().take_while(|&(number, end)| number == 0 || end <= SIDE).count()
}

#[cfg(test)]
mod tests {
    use super::*;

    #[test]
    fn a_line_feed_belongs_to_the_line_that_it_ends() {
        let places = [0, 1, 2, 3, 4].map(|place| line_and_column(b"a\n\nb", place));
        assert_eq!(places, [(1, 1), (1, 2), (2, 1), (3, 1), (3, 2)]);
        assert_eq!(excerpt(b"a\n\nb", 1), "  a<0A>\n   ^\n");
    }

    #[test]
    fn only_the_line_is_shown() {
        assert_eq!(excerpt(b"[1,\r\n\t2,,\r\n3]", 8), "   2,,\n     ^\n");
        assert_eq!(excerpt(b"[1,\n2", 5), "  2\n   ^\n");
        assert_eq!(excerpt(b"[\n", 2), "");
    }

    #[test]
    fn the_caret_stands_right_behind_wide_bytes() {
        assert_eq!(excerpt(b"\"\xc3\xa9\tx\"", 3), "  \"<C3><A9><09>x\"\n           ^\n");
    }

    #[test]
    fn a_long_line_is_cut_on_both_sides() {
        let text = [&[b'a'; 50][..], b"!", &[b'b'; 50]].concat();
        let shown = format!("  ...{}!{}...\n", "a".repeat(36), "b".repeat(35));
        assert_eq!(excerpt(&text, 50), format!("{shown}{}^\n", " ".repeat(41)));
        let text = [&[b'a'; 36][..], b"!", &[b'b'; 35]].concat();
        assert_eq!(excerpt(&text, 36).lines().next(), Some(&*format!("  {}!{}", "a".repeat(36), "b".repeat(35))));
    }
}
