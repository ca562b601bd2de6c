//! nib_merge beside others that read target and patch, merge them and write the result with sorted names.

use crate::entry::{Contestant, Entry, Ratio};
use crate::{library, texts};
use serde_json::{Map, Value};

extern "C" {
    fn peer_nlohmann_merge(target: *const u8, target_length: usize, patch: *const u8, patch_length: usize) -> bool;
}

pub const ENTRY: Entry =
    Entry { contestants: &CONTESTANTS, ratios: &RATIOS, texts: texts::to_merge, longest: Vec::new };

const CONTESTANTS: [Contestant; 3] = [
    Contestant {
        name: "nib_merge",
        accepts: |text, lent| {
            let tables = [&mut lent.table[..], &mut lent.patch_table];
            library::merge([text.padded.text(), text.patch.text()], tables, &mut lent.out).number == 0
        },
    },
    Contestant {
        name: "serde_json Value",
        accepts: |text, _| merged(text.padded.text(), text.patch.text()).is_ok_and(|bytes| !bytes.is_empty()),
    },
    Contestant {
        name: "nlohmann::json",
        accepts: |text, _| unsafe {
            peer_nlohmann_merge(text.padded.start(), text.padded.len(), text.patch.start(), text.patch.len())
        },
    },
];

const RATIOS: [Ratio; 2] =
    [("one row changed", "serde_json Value", 1.5), ("half of the rows changed", "serde_json Value", 1.5)];

fn merged(target: &[u8], patch: &[u8]) -> serde_json::Result<Vec<u8>> {
    let mut target = serde_json::from_slice(target)?;
    merge_patch(&mut target, serde_json::from_slice(patch)?);
    serde_json::to_vec(&target)
}

/// RFC 7396, section 2. Values are moved from the patch and never copied.
fn merge_patch(target: &mut Value, patch: Value) {
    let Value::Object(changes) = patch else {
        *target = patch;
        return;
    };
    if !target.is_object() {
        *target = Value::Object(Map::new());
    }
    let members = target.as_object_mut().expect("an object");
    for (name, value) in changes {
        if value.is_null() {
            members.remove(&name);
        } else {
            merge_patch(members.entry(name).or_insert(Value::Null), value);
        }
    }
}
