//! One value of a text that was read.

use crate::Document;
use std::ops::Range;

/// Word 2 of a record whose value has no name.
const NO_NAME: u32 = u32::MAX;

/// One value of a [`Document`].
///
/// ```
/// use nibrocate::Document;
///
/// let document = Document::read(br#"{"rent":[650,-20.5],"food":300}"#)?;
/// let names: Vec<_> = document.root().inside().map(|value| value.name().unwrap()).collect();
/// assert_eq!(names, [b"rent", b"food"]);
/// let sums: Vec<_> = document.get("/rent")?.inside().map(|value| value.bytes()).collect();
/// assert_eq!(sums, [&b"650"[..], b"-20.5"]);
/// # Ok::<(), nibrocate::Refusal>(())
/// ```
#[derive(Clone, Copy, Debug, PartialEq, Eq, Hash)]
pub struct Value<'d, 't> {
    document: &'d Document<'t>,
    number: usize,
}

impl<'d, 't> Value<'d, 't> {
    pub(crate) fn new(document: &'d Document<'t>, number: usize) -> Self {
        Value { document, number }
    }

    /// Its number, in the order in which the text's values start. The whole value is 0.
    pub fn number(&self) -> usize {
        self.number
    }

    /// Where it stands in the text.
    pub fn range(&self) -> Range<usize> {
        let record = self.document.record(self.number);
        record[0] as usize..record[1] as usize
    }

    /// Its bytes in the text, without whitespace around them, and with the quotes of a string.
    pub fn bytes(&self) -> &'t [u8] {
        &self.document.text()[self.range()]
    }

    /// Its name as the text spells it, without the quotes, where it is a member of an object.
    pub fn name(&self) -> Option<&'t [u8]> {
        let quote = self.document.record(self.number)[2];
        (quote != NO_NAME).then(|| until_quote(&self.document.text()[quote as usize + 1..]))
    }

    /// The values right inside it, in the order of the text; none where it is no array and no object.
    pub fn inside(&self) -> impl Iterator<Item = Value<'d, 't>> + 'd {
        let (document, end) = (self.document, self.next());
        let mut number = self.number + 1;
        std::iter::from_fn(move || {
            let value = (number < end).then(|| Value::new(document, number))?;
            number = value.next();
            Some(value)
        })
    }

    /// The number of the next value that isn't inside this one.
    fn next(&self) -> usize {
        self.document.record(self.number)[3] as usize
    }
}

/// What stands before the first quote that isn't escaped.
fn until_quote(characters: &[u8]) -> &[u8] {
    let mut end = 0;
    while characters[end] != b'"' {
        end += if characters[end] == b'\\' { 2 } else { 1 };
    }
    &characters[..end]
}
