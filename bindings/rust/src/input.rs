//! What a call is given, and what it is to write.

use std::fmt;

/// The input that a refusal is about.
#[derive(Clone, Copy, Debug, PartialEq, Eq, Hash)]
#[non_exhaustive]
pub enum Input {
    /// The text that was read.
    Text,
    /// The text that a patch was to be merged into.
    Target,
    /// The merge patch.
    Patch,
    /// The JSON pointer.
    Pointer,
    /// What was to be written.
    Output,
}

impl fmt::Display for Input {
    fn fmt(&self, f: &mut fmt::Formatter<'_>) -> fmt::Result {
        f.write_str(match self {
            Input::Text => "text",
            Input::Target => "target",
            Input::Patch => "patch",
            Input::Pointer => "pointer",
            Input::Output => "output",
        })
    }
}
