//! nib_write beside others that read a text, sort its members and write it without whitespace.

use crate::entry::{Contestant, Entry, Ratio};
use crate::{library, texts};
use serde_json::Value;

extern "C" {
    fn peer_nlohmann_write(text: *const u8, length: usize) -> bool;
    fn peer_jansson_write(text: *const u8, length: usize) -> bool;
}

pub const ENTRY: Entry =
    Entry { contestants: &CONTESTANTS, ratios: &RATIOS, texts: texts::to_write, longest: texts::too_long_when_written };

const CONTESTANTS: [Contestant; 4] = [
    Contestant {
        name: "nib_write",
        accepts: |text, lent| library::write(text.padded.text(), &mut lent.table, &mut lent.out).number == 0,
    },
    Contestant {
        name: "serde_json Value",
        accepts: |text, _| {
            let value = serde_json::from_slice::<Value>(text.padded.text());
            value.is_ok_and(|value| serde_json::to_vec(&value).is_ok_and(|bytes| !bytes.is_empty()))
        },
    },
    Contestant {
        name: "nlohmann::json",
        accepts: |text, _| unsafe { peer_nlohmann_write(text.padded.start(), text.padded.len()) },
    },
    Contestant {
        name: "jansson, no repeats",
        accepts: |text, _| unsafe { peer_jansson_write(text.padded.start(), text.padded.len()) },
    },
];

const RATIOS: [Ratio; 2] = [("sheet", "serde_json Value", 1.5), ("numbers", "serde_json Value", 0.7)];
