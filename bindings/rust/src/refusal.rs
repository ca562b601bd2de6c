//! The error type.

use crate::raw::Answer;
use crate::{Input, Kind};
use std::error::Error;
use std::fmt;

/// Why and where a call is refused.
///
/// ```
/// use nibrocate::{canonical, Input, Kind};
///
/// let refusal = canonical(br#"{"a":1,"\u0061":2}"#).unwrap_err();
/// assert_eq!(refusal.kind(), Kind::NameTwice);
/// assert_eq!((refusal.number(), refusal.input(), refusal.place()), (8, Input::Text, 14));
/// assert_eq!(refusal.to_string(), "name twice (refusal 8, byte 14 of the text)");
/// ```
#[derive(Clone, Copy, Debug, PartialEq, Eq, Hash)]
pub struct Refusal {
    kind: Kind,
    input: Input,
    place: usize,
}

impl Refusal {
    /// The count of an accepted answer, or the refusal of another. `first` and `second` are the call's inputs 1 and 2.
    pub(crate) fn check(answer: Answer, first: Input, second: Input) -> Result<usize, Refusal> {
        if answer.number == 0 {
            return Ok(answer.count as usize);
        }
        let kind = Kind::of(answer.number).expect("the library gives no number above 13");
        let input = match answer.input {
            1 => first,
            2 => second,
            _ => Input::Output,
        };
        Err(Refusal { kind, input, place: answer.place as usize })
    }

    /// Why.
    pub fn kind(&self) -> Kind {
        self.kind
    }

    /// The number of the kind, from 1 to 13.
    pub fn number(&self) -> u32 {
        self.kind.number()
    }

    /// The input that is at fault.
    pub fn input(&self) -> Input {
        self.input
    }

    /// The offset of the byte at fault in that input, or, where the input is the output, the length needed.
    pub fn place(&self) -> usize {
        self.place
    }

    /// The kind's name in two or three words.
    pub fn name(&self) -> &'static str {
        self.kind.name()
    }

    /// The rule that was broken, as a sentence.
    pub fn sentence(&self) -> &'static str {
        self.kind.sentence()
    }
}

impl fmt::Display for Refusal {
    fn fmt(&self, f: &mut fmt::Formatter<'_>) -> fmt::Result {
        let (name, number, place) = (self.name(), self.number(), self.place);
        match self.input {
            Input::Output => write!(f, "{name} (refusal {number}, {place} bytes needed)"),
            input => write!(f, "{name} (refusal {number}, byte {place} of the {input})"),
        }
    }
}

impl Error for Refusal {}
