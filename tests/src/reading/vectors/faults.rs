//! Every sentence with few values, with each of the usual faults at each of its tokens. A fault is refused at the first
//! byte of the first token that can't stand.

use super::tokens::{sentences, written, Kind, Sentence, Token};
use super::wrong;
use crate::answer::Answer;
use crate::group::{Group, Test};

pub const TESTS: [Test; 4] = [
    ("every token left out, doubled, put or changed", tokens),
    ("every sentence that goes on behind its end", goes_on),
    ("every sentence that breaks off", breaks_off),
    ("every scalar of another notation", scalars),
];

/// A faulty sentence, and the number of the token that can't stand.
type Fault = (Sentence, usize);

/// A rule for faults: what it makes at a token of a sentence, if it applies there.
type Rule = fn(&[Token], usize) -> Option<Fault>;

const RULES: [Rule; 7] =
    [left_out, separator_doubled, comma_behind_open, comma_before_close, other_close, other_separator, name_unquoted];

const VALUES: usize = 4;

/// The sentence with these tokens in place of one.
fn changed(sentence: &[Token], at: usize, to: &[Token]) -> Sentence {
    [&sentence[..at], to, &sentence[at + 1..]].concat()
}

fn comma() -> Token {
    Token::new(Kind::Comma, b",")
}

/// The token behind can't stand, but where an element stood by itself and an empty array is left.
fn left_out(sentence: &[Token], at: usize) -> Option<Fault> {
    let before = sentence[..at].last()?.kind;
    let behind = sentence.get(at + 1)?.kind;
    let is_fault = match sentence[at].kind {
        Kind::Open | Kind::Close => false,
        Kind::Scalar => (before, behind) != (Kind::Open, Kind::Close),
        Kind::Comma | Kind::Colon | Kind::Name => true,
    };
    is_fault.then(|| (changed(sentence, at, &[]), at))
}

fn separator_doubled(sentence: &[Token], at: usize) -> Option<Fault> {
    let token = &sentence[at];
    let is_separator = matches!(token.kind, Kind::Comma | Kind::Colon);
    is_separator.then(|| (changed(sentence, at, &[token.clone(), token.clone()]), at + 1))
}

fn comma_behind_open(sentence: &[Token], at: usize) -> Option<Fault> {
    let token = &sentence[at];
    (token.kind == Kind::Open).then(|| (changed(sentence, at, &[token.clone(), comma()]), at + 1))
}

fn comma_before_close(sentence: &[Token], at: usize) -> Option<Fault> {
    let token = &sentence[at];
    let is_fault = token.kind == Kind::Close && sentence[at - 1].kind != Kind::Open;
    is_fault.then(|| (changed(sentence, at, &[comma(), token.clone()]), at + 1))
}

fn other_close(sentence: &[Token], at: usize) -> Option<Fault> {
    let token = &sentence[at];
    let other: &[u8] = if token.bytes == b"]" { b"}" } else { b"]" };
    (token.kind == Kind::Close).then(|| (changed(sentence, at, &[Token::new(Kind::Close, other)]), at))
}

fn other_separator(sentence: &[Token], at: usize) -> Option<Fault> {
    let other: &[u8] = match sentence[at].kind {
        Kind::Comma => b":",
        Kind::Colon => b",",
        _ => return None,
    };
    Some((changed(sentence, at, &[Token::new(Kind::Comma, other)]), at))
}

/// A name without its quotes, which is then a number.
fn name_unquoted(sentence: &[Token], at: usize) -> Option<Fault> {
    let token = &sentence[at];
    let bare = |bytes: &[u8]| Token::new(Kind::Name, &bytes[1..bytes.len() - 1]);
    (token.kind == Kind::Name).then(|| (changed(sentence, at, &[bare(&token.bytes)]), at))
}

/// All sentences that the faults are put into.
fn small() -> impl Iterator<Item = Sentence> {
    (1..=VALUES).flat_map(sentences)
}

/// Compares a sentence that is refused as 4 at a token. Tokens are kept apart, so that none joins with the next.
fn refused_at(group: &mut Group, sentence: &[Token], at: usize) {
    for around in [&b" "[..], b"\r\n"] {
        let (text, starts) = written(sentence, around);
        group.read_known(&text, Answer::refused(4, 1, starts[at]));
    }
}

fn tokens(group: &mut Group) {
    for sentence in small() {
        for at in 0..sentence.len() {
            for (faulty, place) in RULES.iter().filter_map(|rule| rule(&sentence, at)) {
                refused_at(group, &faulty, place);
            }
        }
    }
}

fn goes_on(group: &mut Group) {
    for sentence in small() {
        for extra in ["]", "}", ",", ":", "[", "{", "\"", "0", "-", "null", "true", "\"a\"", "x", "\u{0}", "\u{e9}"] {
            let longer = [&sentence[..], &[Token::new(Kind::Scalar, extra.as_bytes())]].concat();
            refused_at(group, &longer, sentence.len());
        }
    }
}

/// Less than a whole sentence can always be continued.
fn breaks_off(group: &mut Group) {
    for sentence in small() {
        for at in 0..sentence.len() {
            for around in [&b""[..], b" "] {
                let text = written(&sentence[..at], around).0;
                group.read_known(&text, Answer::refused(3, 1, text.len()));
            }
        }
    }
}

fn scalars(group: &mut Group) {
    for sentence in small() {
        for at in (0..sentence.len()).filter(|&at| sentence[at].kind == Kind::Scalar) {
            for (bytes, number, inside) in wrong::SCALARS {
                let (text, starts) = written(&changed(&sentence, at, &[Token::new(Kind::Scalar, bytes)]), b" ");
                group.read_known(&text, Answer::refused(number, 1, starts[at] + inside));
            }
        }
    }
}
