//! What 01 (docs/01-scope.md) asks of each entry, written from its words and the readings in docs/DECISIONS.md, without a
//! look at the code, and meant to be believed by reading.
//! The reader goes byte by byte, judges numbers and characters by their whole spelling so far, keeps names as sets of
//! units, and makes the records from the finished tree. The writer goes down the grammar to what the text means, where
//! no spelling and no order is left, and up again. The look-up goes down the grammar too, and then from the root by
//! maps of names and lists of elements; it never looks at a table. The merge is RFC 7396's own procedure, over what the
//! two texts mean.

mod canonical;
mod ceilings;
mod character;
mod decimal;
mod growth;
mod lookup;
mod machine;
mod meaning;
mod merge;
mod number;
mod parse;
mod pointer;
mod records;
mod tree;
mod verdict;

use crate::answer::Answer;
use crate::part::Part;
pub use decimal::Decimal;
pub use meaning::Meaning;
pub use merge::merge_patch;
pub use parse::{meaning, tree};
pub use tree::{Inside, Tree};

const MAX_TEXT: usize = 1_048_576;
const WORDS_PER_BYTE: usize = 4;
const FIRST_INPUT: u32 = 1;
const SECOND_INPUT: u32 = 2;
const OUTPUT: u32 = 3;

/// 01 "The answer and its numbers" (the order 1, 2, then 3 to 9) and "The record table" (its content at exit).
pub fn read(text: &[u8], table: &mut [u32]) -> Answer {
    if text.len() > MAX_TEXT {
        return Answer::refused(1, FIRST_INPUT, 0);
    }
    let needed = WORDS_PER_BYTE * text.len();
    if table.len() < needed {
        return Answer::refused(2, FIRST_INPUT, 0);
    }
    match verdict::verdict(text) {
        Ok(root) => {
            let records = records::records(&root);
            for (words, record) in table.chunks_mut(WORDS_PER_BYTE).zip(&records) {
                words.copy_from_slice(record);
            }
            Answer::accepted(records.len())
        }
        Err(refusal) => {
            table[..needed].fill(0);
            Answer::refused(refusal.number, FIRST_INPUT, refusal.place)
        }
    }
}

/// 01 "The answer and its numbers" (the text, 13, 12) and "Canonical text".
pub fn write(text: &[u8], table: &mut [u32], out: &mut [u8]) -> Answer {
    let reading = read(text, table);
    match reading.number {
        0 => put(&canonical(text), out),
        _ => reading,
    }
}

/// The canonical text of what an accepted text means.
pub fn canonical(text: &[u8]) -> Vec<u8> {
    canonical::canonical(&meaning(text)).into_bytes()
}

/// Puts a result to the front of an output, or refuses it as 13 or 12.
pub fn put(result: &[u8], out: &mut [u8]) -> Answer {
    let needed = result.len();
    if needed > MAX_TEXT {
        return Answer::refused(13, OUTPUT, needed);
    }
    if needed > out.len() {
        return Answer::refused(12, OUTPUT, needed);
    }
    out[..needed].copy_from_slice(result);
    Answer::accepted(needed)
}

/// 01 "The answer and its numbers" (the text, 10, 11) and "Pointer": the answer, and the look-up as a part of the text.
pub fn find(text: &[u8], table: &mut [u32], pointer: &[u8]) -> (Answer, Part) {
    let reading = read(text, table);
    match reading.number {
        0 => look_up(&tree(text), pointer),
        _ => (reading, Part::EMPTY),
    }
}

/// The look-up in the tree of an accepted text.
pub fn look_up(root: &Tree, pointer: &[u8]) -> (Answer, Part) {
    match lookup::find(root, pointer) {
        Ok(found) => (Answer::accepted(found.record), Part { start: found.start, end: found.end }),
        Err(lost) => (Answer::refused(lost.number, SECOND_INPUT, lost.place), Part::EMPTY),
    }
}

/// 01 "The answer and its numbers" (all of the target, then all of the patch, 13, 12) and "Merge patch".
pub fn merge(texts: [&[u8]; 2], tables: [&mut [u32]; 2], out: &mut [u8]) -> Answer {
    let reading = read_both(texts, tables);
    match reading.number {
        0 => put(&merged(texts), out),
        _ => reading,
    }
}

/// The refusal of the target, or else the reading of the patch, whose table isn't touched when the target is refused.
pub fn read_both([target, patch]: [&[u8]; 2], [target_table, patch_table]: [&mut [u32]; 2]) -> Answer {
    let reading = read(target, target_table);
    if reading.number != 0 {
        return reading;
    }
    let reading = read(patch, patch_table);
    match reading.number {
        0 => reading,
        _ => Answer { input: SECOND_INPUT, ..reading },
    }
}

/// The canonical text of an accepted target as an accepted patch changes it.
pub fn merged([target, patch]: [&[u8]; 2]) -> Vec<u8> {
    canonical::canonical(&merge_patch(Some(meaning(target)), &meaning(patch))).into_bytes()
}
