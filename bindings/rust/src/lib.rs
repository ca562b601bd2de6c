#![doc = include_str!("../README.md")]
#![deny(missing_docs, unsafe_code)]

mod canonical;
mod document;
mod input;
mod kind;
mod merge;
#[allow(unsafe_code)]
mod raw;
mod refusal;
mod room;
mod value;

pub use canonical::canonical;
pub use document::Document;
pub use input::Input;
pub use kind::Kind;
pub use merge::merge;
pub use refusal::Refusal;
pub use value::Value;

/// The most bytes that a text may have, be it read or written.
pub const TEXT_BYTES: usize = 1_048_576;
