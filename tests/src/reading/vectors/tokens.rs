//! Sentences of the grammar as lists of tokens, made by its rules.

#[derive(Clone, Copy, PartialEq, Eq)]
pub enum Kind {
    Open,
    Close,
    Comma,
    Colon,
    Name,
    Scalar,
}

#[derive(Clone)]
pub struct Token {
    pub kind: Kind,
    pub bytes: Vec<u8>,
}

impl Token {
    pub fn new(kind: Kind, bytes: &[u8]) -> Token {
        Token { kind, bytes: bytes.to_vec() }
    }
}

pub type Sentence = Vec<Token>;

const SCALARS: [&str; 9] = ["null", "\"\"", "0", "true", "-1.5e-07", "\"a\\u0041\\n\"", "false", "12", "\"]}\""];

/// All sentences of exactly this many values. Scalars and names are taken in turn, so that no name stands twice.
pub fn sentences(values: usize) -> Vec<Sentence> {
    let mut made = of_values(values);
    made.iter_mut().for_each(name_all);
    made
}

fn name_all(sentence: &mut Sentence) {
    for (number, token) in sentence.iter_mut().enumerate() {
        match token.kind {
            Kind::Name => token.bytes = format!("\"{number}\"").into_bytes(),
            Kind::Scalar => token.bytes = SCALARS[number % SCALARS.len()].into(),
            _ => {}
        }
    }
}

/// One value with others inside it: a scalar, or a container of all that can stand in it.
fn of_values(values: usize) -> Vec<Sentence> {
    let scalar = if values == 1 { vec![vec![Token::new(Kind::Scalar, b"")]] } else { vec![] };
    let inside = rows(values - 1);
    let arrays = inside.iter().map(|row| container(row, b"[", b"]", &[]));
    let member = [Token::new(Kind::Name, b""), Token::new(Kind::Colon, b":")];
    let objects = inside.iter().map(|row| container(row, b"{", b"}", &member));
    scalar.into_iter().chain(arrays).chain(objects).collect()
}

/// The values of a row in a container, each with what stands before it there.
fn container(row: &[Sentence], open: &[u8], close: &[u8], before: &[Token]) -> Sentence {
    let parts: Vec<Sentence> = row.iter().map(|value| [before, value].concat()).collect();
    let inside = parts.join(&[Token::new(Kind::Comma, b",")][..]);
    [vec![Token::new(Kind::Open, open)], inside, vec![Token::new(Kind::Close, close)]].concat()
}

/// All rows of values that have this many values together.
fn rows(values: usize) -> Vec<Vec<Sentence>> {
    if values == 0 {
        return vec![vec![]];
    }
    let with_first = |first: usize| {
        let rests = rows(values - first);
        of_values(first)
            .into_iter()
            .flat_map(move |value| rests.clone().into_iter().map(move |rest| [vec![value.clone()], rest].concat()))
    };
    (1..=values).flat_map(with_first).collect()
}

/// The text of a sentence with these bytes around each token, and where each token begins.
pub fn written(sentence: &[Token], around: &[u8]) -> (Vec<u8>, Vec<usize>) {
    let mut text = around.to_vec();
    let mut starts = Vec::new();
    for token in sentence {
        starts.push(text.len());
        text.extend_from_slice(&token.bytes);
        text.extend_from_slice(around);
    }
    (text, starts)
}
