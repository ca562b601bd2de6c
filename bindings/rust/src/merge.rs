//! The merge patch.

use crate::{raw, room, Input, Refusal};

/// Applies a merge patch (RFC 7396) to a target: the canonical text of the result.
///
/// ```
/// let result = nibrocate::merge(br#"{"a":1,"b":2}"#, br#"{"b":null,"c":[true]}"#)?;
/// assert_eq!(result, br#"{"a":1,"c":[true]}"#);
/// # Ok::<(), nibrocate::Refusal>(())
/// ```
///
/// # Errors
///
/// The reader's refusals of the target, then those of the patch, then
/// [`ResultTooLong`](crate::Kind::ResultTooLong).
pub fn merge(target: &[u8], patch: &[u8]) -> Result<Vec<u8>, Refusal> {
    let mut out = room::output(target.len().saturating_add(patch.len()));
    let (mut target_table, mut patch_table) = (room::table(target), room::table(patch));
    let answer = raw::merge((target, &mut target_table), (patch, &mut patch_table), &mut out);
    let count = Refusal::check(answer, Input::Target, Input::Patch)?;
    out.truncate(count);
    out.shrink_to_fit();
    Ok(out)
}
