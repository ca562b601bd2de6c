//! What a text means. 01 "What a text means".

use super::decimal::Decimal;
use std::collections::BTreeMap;

/// An object is a map, which knows no order of writing. Its names go by their units, as vectors do: the first difference
/// decides, and a proper prefix comes first.
#[derive(Clone, Debug, PartialEq, Eq, PartialOrd, Ord)]
pub enum Meaning {
    Null,
    Boolean(bool),
    Number(Decimal),
    String(Vec<u16>),
    Array(Vec<Meaning>),
    Object(BTreeMap<Vec<u16>, Meaning>),
}
