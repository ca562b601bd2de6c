//! 01 "House ceilings", each named by the number of its refusal. One of them may be dropped.

const DEPTH: u32 = 5;
const DIGITS: u32 = 6;
const EXPONENT: u32 = 7;
const NAMES: u32 = 8;
const ASCII: u32 = 9;

pub const ALL: std::ops::RangeInclusive<u32> = DEPTH..=ASCII;

#[derive(Clone, Copy)]
pub struct Ceilings {
    dropped: Option<u32>,
}

impl Ceilings {
    pub const HOUSE: Ceilings = Ceilings { dropped: None };

    pub fn without(number: u32) -> Ceilings {
        Ceilings { dropped: Some(number) }
    }

    fn allow(self, number: u32, within: bool) -> bool {
        within || self.dropped == Some(number)
    }

    /// May this many containers be open at once?
    pub fn allow_depth(self, open: usize) -> bool {
        self.allow(DEPTH, open <= 64)
    }

    /// May a number have this many digits before and after the point together?
    pub fn allow_digits(self, digits: usize) -> bool {
        self.allow(DIGITS, digits <= 18)
    }

    /// May an exponent have this many written digits, and the number this normal exponent?
    pub fn allow_exponent(self, written: usize, normal: i64) -> bool {
        self.allow(EXPONENT, written <= 3 && (-999..=999).contains(&normal))
    }

    pub fn allow_name(self, is_repeated: bool) -> bool {
        self.allow(NAMES, !is_repeated)
    }

    pub fn allow_character(self, byte: u8) -> bool {
        self.allow(ASCII, byte < 0x80)
    }
}
