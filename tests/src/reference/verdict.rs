//! The verdict on any bytes: the value of a text, or number and place of the refusal. 01 "The answer and its numbers".

use super::ceilings::{self, Ceilings};
use super::machine::Machine;
use super::records::Value;

pub struct Refusal {
    pub number: u32,
    pub place: usize,
}

/// The machine goes on exactly as long as the bytes so far have a continuation, so it stops at the place P.
pub fn verdict(text: &[u8]) -> Result<Value, Refusal> {
    let mut machine = Machine::new();
    for (place, &byte) in text.iter().enumerate() {
        match machine.judge(byte, Ceilings::HOUSE) {
            Some(step) => machine.take(step, place),
            None => return Err(Refusal { number: blame(&machine, byte), place }),
        }
    }
    machine.finish(text.len()).ok_or(Refusal { number: 3, place: text.len() })
}

/// The one ceiling without which the byte at P could stand, or 4 where there is none.
fn blame(machine: &Machine, byte: u8) -> u32 {
    let mends = |&number: &u32| machine.judge(byte, Ceilings::without(number)).is_some();
    let blamed: Vec<u32> = ceilings::ALL.filter(mends).collect();
    assert!(blamed.len() <= 1, "two ceilings claim byte {byte}: {blamed:?}");
    blamed.first().copied().unwrap_or(4)
}
