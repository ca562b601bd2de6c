//! What more can be said of a refusal than its name and place.

use crate::expected;
use crate::open::Open;
use crate::shown;
use crate::source::Source;
use crate::units::units;
use nibrocate::{Kind, Refusal, TEXT_BYTES};

/// What more can be said, if anything.
pub fn of(refusal: &Refusal, source: &Source) -> Option<String> {
    match refusal.kind() {
        Kind::TextTooLong => Some(match source.size {
            Some(size) if size > TEXT_BYTES as u64 => format!("it has {size} bytes"),
            _ => format!("it has over {TEXT_BYTES} bytes"),
        }),
        Kind::Unfinished => unfinished(&source.text),
        Kind::WrongByte => {
            let (start, rest) = source.text.split_at(refusal.place());
            Some(expected::instead_of(rest[0], start))
        }
        Kind::NameTwice => used_before(&source.text[..=refusal.place()]),
        Kind::ResultTooLong => Some(format!("it would have {} bytes", refusal.place())),
        _ => None,
    }
}

/// What a text leaves open.
fn unfinished(text: &[u8]) -> Option<String> {
    let open = Open::at_end(text);
    match (open.string, open.containers.last()) {
        (Some(at), _) => Some(format!("the string at byte {at} isn't closed")),
        (None, Some(inner)) => {
            let what = if text[inner.at] == b'{' { "object" } else { "array" };
            Some(format!("the {what} at byte {} isn't closed", inner.at))
        }
        (None, None) => None,
    }
}

/// Where the name that ends `start` was used before in its object, as it was spelled there.
fn used_before(start: &[u8]) -> Option<String> {
    let open = Open::at_end(start);
    let (again, names) = open.containers.last()?.names.split_last()?;
    let inner = |name: &std::ops::Range<usize>| &start[name.start + 1..name.end - 1];
    let wanted = units(inner(again));
    let first = names.iter().find(|name| units(inner(name)) == wanted)?;
    Some(format!("{} was already used at byte {}", shown::quoted(inner(first)), first.start))
}
