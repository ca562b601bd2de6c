//! RFC 7396, section 2, step by step. 01 "Merge patch".

use super::meaning::Meaning;
use std::collections::BTreeMap;

/// MergePatch(Target, Patch), where the target may be undefined.
pub fn merge_patch(target: Option<Meaning>, patch: &Meaning) -> Meaning {
    let Meaning::Object(changes) = patch else {
        return patch.clone();
    };
    let mut members = match target {
        Some(Meaning::Object(members)) => members,
        _ => BTreeMap::new(),
    };
    for (name, value) in changes {
        let old = members.remove(name);
        if *value != Meaning::Null {
            members.insert(name.clone(), merge_patch(old, value));
        }
    }
    Meaning::Object(members)
}
