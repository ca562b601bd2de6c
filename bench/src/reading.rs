//! nib_read beside other readers.

use crate::entry::{Contestant, Entry, Ratio};
use crate::{library, texts};
use serde::de::IgnoredAny;
use serde_json::Value;

extern "C" {
    fn peer_simdjson(text: *const u8, length: usize) -> bool;
    fn peer_rapidjson(text: *const u8, length: usize) -> bool;
    fn peer_jansson(text: *const u8, length: usize) -> bool;
}

pub const ENTRY: Entry = Entry { contestants: &CONTESTANTS, ratios: &RATIOS, texts: texts::to_read, longest: Vec::new };

const CONTESTANTS: [Contestant; 6] = [
    Contestant {
        name: "nib_read",
        accepts: |text, lent| library::read(text.padded.text(), &mut lent.table).number == 0,
    },
    Contestant {
        name: "serde_json IgnoredAny",
        accepts: |text, _| serde_json::from_slice::<IgnoredAny>(text.padded.text()).is_ok(),
    },
    Contestant {
        name: "serde_json Value",
        accepts: |text, _| serde_json::from_slice::<Value>(text.padded.text()).is_ok(),
    },
    Contestant {
        name: "simdjson DOM",
        accepts: |text, _| unsafe { peer_simdjson(text.padded.start(), text.padded.len()) },
    },
    Contestant {
        name: "rapidjson SAX",
        accepts: |text, _| unsafe { peer_rapidjson(text.padded.start(), text.padded.len()) },
    },
    Contestant {
        name: "jansson, no repeats",
        accepts: |text, _| unsafe { peer_jansson(text.padded.start(), text.padded.len()) },
    },
];

const RATIOS: [Ratio; 5] = [
    ("sheet", "serde_json IgnoredAny", 0.6),
    ("pretty sheet", "serde_json IgnoredAny", 0.6),
    ("sheet", "serde_json Value", 3.0),
    ("random names", "serde_json Value", 1.3),
    ("sheet", "jansson, no repeats", 8.0),
];
