//! The answer of an entry, as 01 "The answer and its numbers" lays it out.

#[repr(C)]
#[derive(Clone, Copy, Debug, PartialEq, Eq)]
pub struct Answer {
    pub number: u32,
    pub input: u32,
    pub place: u32,
    pub count: u32,
}

impl Answer {
    pub fn accepted(count: usize) -> Answer {
        Answer { number: 0, input: 0, place: 0, count: count as u32 }
    }

    pub fn refused(number: u32, input: u32, place: usize) -> Answer {
        Answer { number, input, place: place as u32, count: 0 }
    }
}
