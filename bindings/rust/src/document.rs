//! A text that was read, with its table.

use crate::{raw, room, Input, Refusal, Value};

/// Words of a record.
const RECORD_WORDS: usize = 4;

/// A text that was read: its values, numbered in the order in which they start.
///
/// ```
/// use nibrocate::Document;
///
/// let document = Document::read(br#"{"a":[1,true]}"#)?;
/// assert_eq!(document.count(), 4);
/// assert_eq!(document.root().bytes(), br#"{"a":[1,true]}"#);
/// assert_eq!(document.get("/a/1")?.bytes(), b"true");
/// assert_eq!(document.value(1).unwrap().name(), Some(&b"a"[..]));
/// # Ok::<(), nibrocate::Refusal>(())
/// ```
#[derive(Clone, PartialEq, Eq, Hash)]
pub struct Document<'t> {
    text: &'t [u8],
    table: Vec<u32>,
}

impl<'t> Document<'t> {
    /// Reads a text.
    ///
    /// # Errors
    ///
    /// Any of the kinds `TextTooLong` and `Unfinished` to `NotAscii`.
    pub fn read(text: &'t [u8]) -> Result<Self, Refusal> {
        let mut table = room::table(text);
        let count = Refusal::check(raw::read(text, &mut table), Input::Text, Input::Text)?;
        table.truncate(RECORD_WORDS * count);
        table.shrink_to_fit();
        Ok(Document { text, table })
    }

    /// The text, as it was handed in.
    pub fn text(&self) -> &'t [u8] {
        self.text
    }

    /// How many values the text has, the whole one included.
    pub fn count(&self) -> usize {
        self.table.len() / RECORD_WORDS
    }

    /// The whole value, number 0, without the whitespace around it.
    pub fn root(&self) -> Value<'_, 't> {
        Value::new(self, 0)
    }

    /// The value of this number, where there is one.
    pub fn value(&self, number: usize) -> Option<Value<'_, 't>> {
        (number < self.count()).then(|| Value::new(self, number))
    }

    /// The value that a JSON pointer (RFC 6901) names. Each call reads the whole text again, with a table of its own.
    ///
    /// # Errors
    ///
    /// [`PointerMalformed`](crate::Kind::PointerMalformed) or [`NothingThere`](crate::Kind::NothingThere).
    pub fn get(&self, pointer: impl AsRef<[u8]>) -> Result<Value<'_, 't>, Refusal> {
        let answer = raw::find(self.text, &mut room::table(self.text), pointer.as_ref());
        let number = Refusal::check(answer, Input::Text, Input::Pointer)?;
        Ok(Value::new(self, number))
    }

    /// The record of a value: see `nib_read` in `nibrocate.h` for its words.
    pub(crate) fn record(&self, number: usize) -> &[u32] {
        &self.table[RECORD_WORDS * number..][..RECORD_WORDS]
    }
}

impl std::fmt::Debug for Document<'_> {
    fn fmt(&self, f: &mut std::fmt::Formatter<'_>) -> std::fmt::Result {
        write!(f, "Document({:?})", String::from_utf8_lossy(self.text))
    }
}
