//! The canonical writer.

use crate::{raw, room, Input, Refusal};

/// The canonical text of what a text means: where neither is refused, texts that mean the same give the same bytes, and
/// others different ones.
///
/// ```
/// let text = nibrocate::canonical(br#"{ "b": 1.50, "a": "\n" }"#)?;
/// assert_eq!(text, br#"{"a":"\u000a","b":15e-1}"#);
/// # Ok::<(), nibrocate::Refusal>(())
/// ```
///
/// # Errors
///
/// The reader's refusals, or [`ResultTooLong`](crate::Kind::ResultTooLong).
pub fn canonical(text: &[u8]) -> Result<Vec<u8>, Refusal> {
    let mut out = room::output(text.len());
    let answer = raw::write(text, &mut room::table(text), &mut out);
    let count = Refusal::check(answer, Input::Text, Input::Text)?;
    out.truncate(count);
    out.shrink_to_fit();
    Ok(out)
}
