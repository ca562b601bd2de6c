//! nib_find beside others that read a text and look a JSON pointer up in what they read.

use crate::entry::{Contestant, Entry, Ratio};
use crate::{library, texts};
use serde_json::Value;

extern "C" {
    fn peer_simdjson_find(text: *const u8, length: usize, pointer: *const u8, pointer_length: usize) -> bool;
}

pub const ENTRY: Entry = Entry { contestants: &CONTESTANTS, ratios: &RATIOS, texts: texts::to_find, longest: Vec::new };

const CONTESTANTS: [Contestant; 3] = [
    Contestant {
        name: "nib_find",
        accepts: |text, lent| library::find(text.padded.text(), &mut lent.table, text.pointer.as_bytes()).number == 0,
    },
    Contestant {
        name: "serde_json Value",
        accepts: |text, _| {
            let value = serde_json::from_slice::<Value>(text.padded.text());
            value.is_ok_and(|value| value.pointer(&text.pointer).is_some())
        },
    },
    Contestant {
        name: "simdjson DOM",
        accepts: |text, _| unsafe {
            peer_simdjson_find(text.padded.start(), text.padded.len(), text.pointer.as_ptr(), text.pointer.len())
        },
    },
];

const RATIOS: [Ratio; 2] =
    [("last cell of a sheet", "serde_json Value", 3.0), ("last of random names", "serde_json Value", 1.3)];
