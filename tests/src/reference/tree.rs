//! The values of a text where they stand in it, which is what a look-up finds. 01 "The record table".

use super::meaning::Meaning;
use std::collections::BTreeMap;

/// A value: its record's number, the offsets of its first byte and of the one behind its last, and what it holds.
/// Records are in order of the values' starts, so the number is how many values start before it.
pub struct Tree {
    pub record: usize,
    pub start: usize,
    pub end: usize,
    pub inside: Inside,
}

pub enum Inside {
    Scalar(Meaning),
    Array(Vec<Tree>),
    Object(BTreeMap<Vec<u16>, Tree>),
}

impl Tree {
    /// What the value means, without its places.
    pub fn meaning(&self) -> Meaning {
        match &self.inside {
            Inside::Scalar(meaning) => meaning.clone(),
            Inside::Array(elements) => Meaning::Array(elements.iter().map(Tree::meaning).collect()),
            Inside::Object(members) => {
                Meaning::Object(members.iter().map(|(name, value)| (name.clone(), value.meaning())).collect())
            }
        }
    }
}
