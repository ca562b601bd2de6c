//! Every byte in every state of the grammar, wherever a value can stand.

use super::states::{states, State, WHITESPACE};
use crate::answer::Answer;
use crate::group::{shown, Group, Test};
use crate::library;

pub const TESTS: [Test; 2] =
    [("every byte in every state of the grammar", every_byte), ("the end in every state of the grammar", the_end)];

const MAX_DEPTH: usize = 64;

/// A place where a value can stand: what is before it, and which bytes but whitespace may stand behind it. A text can
/// end behind the value only where none may.
struct Place {
    before: String,
    behind: &'static [u8],
}

fn places() -> Vec<Place> {
    let one = |before: &str, behind| Place { before: before.into(), behind };
    vec![
        one("", b""),
        one("[0,", b",]"),
        one("{\"x\":", b",}"),
        one("[{},{\"y\" :[],\"x\": ", b",}"),
        one("{\"x\":{\"x\":[[1, ", b",]"),
        one(&format!("{}[0,", "[".repeat(MAX_DEPTH - 2)), b",]"),
        one(&format!("{}{{\"x\":", "[".repeat(MAX_DEPTH - 1)), b",}"),
    ]
}

/// How many containers are open behind these bytes, whose strings hold no brackets.
fn depth(text: &str) -> usize {
    let count = |brackets: [char; 2]| text.matches(brackets).count();
    count(['[', '{']) - count([']', '}'])
}

/// The refusal that the rules give for a byte, or none where it may stand.
fn refusal(place: &Place, state: &State, byte: u8) -> Option<u32> {
    let is_bracket = byte == b'[' || byte == b'{';
    let is_behind = WHITESPACE.contains(&byte) || place.behind.contains(&byte);
    if state.may.contains(&byte) && is_bracket && is_bracket_due(state) && depth_at(place, state) == MAX_DEPTH {
        Some(5)
    } else if state.may.contains(&byte) || (state.is_whole && is_behind) {
        None
    } else {
        Some(state.over.iter().find(|over| over.0 == byte).map_or(4, |over| over.1))
    }
}

/// Brackets are characters of a string where one is open.
fn is_bracket_due(state: &State) -> bool {
    !state.may.contains(&b'a')
}

fn depth_at(place: &Place, state: &State) -> usize {
    depth(&place.before) + depth(&state.before)
}

/// Each place with each state that can be reached in it without a container too many.
fn each(mut visit: impl FnMut(&Place, &State)) {
    for place in places() {
        for state in states() {
            let deepest = (0..=state.before.len()).map(|at| depth(&state.before[..at])).max();
            if depth(&place.before) + deepest.unwrap_or(0) <= MAX_DEPTH {
                visit(&place, &state);
            }
        }
    }
}

fn every_byte(group: &mut Group) {
    each(|place, state| {
        let before = [place.before.as_bytes(), state.before.as_bytes()].concat();
        for byte in 0..=255 {
            let text = [&before[..], &[byte]].concat();
            match refusal(place, state, byte) {
                None => goes_on(group, &text),
                Some(number) => refused(group, &text, number),
            }
        }
    });
}

/// A text that has a continuation: it is accepted, or refused for its end alone.
fn goes_on(group: &mut Group, text: &[u8]) {
    let answer = library::read(text, &mut vec![0; 4 * text.len()]);
    let is_unfinished = answer == Answer::refused(3, 1, text.len());
    group.judge(answer.number == 0 || is_unfinished, || format!("{}\n  goes on, but {answer:?}", shown(text)));
    group.read(text);
}

/// A text refused for its last byte, whatever stands behind it.
fn refused(group: &mut Group, text: &[u8], number: u32) {
    for behind in [&b""[..], b"\" 0]}"] {
        group.read_known(&[text, behind].concat(), Answer::refused(number, 1, text.len() - 1));
    }
}

/// A text may end exactly behind a whole value that stands by itself.
fn the_end(group: &mut Group) {
    each(|place, state| {
        let text = [place.before.as_bytes(), state.before.as_bytes()].concat();
        let answer = library::read(&text, &mut vec![0; 4 * text.len()]);
        let is_over = state.is_whole && place.behind.is_empty();
        let is_right = if is_over { answer.number == 0 } else { answer == Answer::refused(3, 1, text.len()) };
        group.judge(is_right, || format!("{}\n  may end: {is_over}, but {answer:?}", shown(&text)));
        group.read(&text);
    });
}
