//! Numbers, judged by all that is written of them so far. 01 "The grammar", "House ceilings", "What a text means".

use super::ceilings::Ceilings;

/// The digits of a number's parts. A part that isn't begun is none; one that is begun may still lack its digits.
struct Parts<'a> {
    whole: &'a [u8],
    fraction: Option<&'a [u8]>,
    exponent: Option<&'a [u8]>,
    is_negative_exponent: bool,
}

fn split_at_byte(bytes: &[u8], is_border: fn(u8) -> bool) -> (&[u8], Option<&[u8]>) {
    match bytes.iter().position(|&byte| is_border(byte)) {
        Some(at) => (&bytes[..at], Some(&bytes[at + 1..])),
        None => (bytes, None),
    }
}

fn split(spelling: &[u8]) -> Parts<'_> {
    let unsigned = spelling.strip_prefix(b"-").unwrap_or(spelling);
    let (decimal, exponent) = split_at_byte(unsigned, |byte| byte == b'e' || byte == b'E');
    let (whole, fraction) = split_at_byte(decimal, |byte| byte == b'.');
    let is_negative_exponent = exponent.is_some_and(|rest| rest.starts_with(b"-"));
    let exponent = exponent.map(|rest| match rest {
        [b'+' | b'-', digits @ ..] => digits,
        digits => digits,
    });
    Parts { whole, fraction, exponent, is_negative_exponent }
}

fn are_digits(bytes: &[u8]) -> bool {
    bytes.iter().all(u8::is_ascii_digit)
}

impl Parts<'_> {
    /// Is this the beginning of a number of the grammar? A part may lack digits only if no part follows it.
    fn is_beginning(&self) -> bool {
        let has_exponent = self.exponent.is_some();
        let fraction = self.fraction.unwrap_or(b"0");
        are_digits(self.whole)
            && are_digits(fraction)
            && are_digits(self.exponent.unwrap_or(b""))
            && !(self.whole.len() > 1 && self.whole[0] == b'0')
            && !(self.whole.is_empty() && (self.fraction.is_some() || has_exponent))
            && !(fraction.is_empty() && has_exponent)
    }

    fn is_whole(&self) -> bool {
        let missing = |part: Option<&[u8]>| part.is_some_and(<[u8]>::is_empty);
        !self.whole.is_empty() && !missing(self.fraction) && !missing(self.exponent)
    }

    /// The digits before and after the point that any number with this beginning has.
    fn least_digits(&self) -> usize {
        self.whole.len() + self.fraction.map_or(0, |digits| digits.len().max(1))
    }

    /// The exponent of the normal form: the coefficient keeps no digit 0 at its end, and zero has the exponent 0.
    fn normal_exponent(&self) -> i64 {
        let fraction = self.fraction.unwrap_or(b"");
        let coefficient = [self.whole, fraction].concat();
        let end_zeros = coefficient.iter().rev().take_while(|&&digit| digit == b'0').count();
        if end_zeros == coefficient.len() {
            return 0;
        }
        let digits = self.exponent.unwrap_or(b"").iter();
        let size = digits.fold(0, |sum, digit| 10 * sum + i64::from(digit - b'0'));
        let written = if self.is_negative_exponent { -size } else { size };
        written - fraction.len() as i64 + end_zeros as i64
    }
}

/// Can a number within the ceilings begin with these bytes? With one exponent digit or two the exponent is in range,
/// and a third is the last, so a beginning in range is always one that can be completed.
pub fn is_beginning(spelling: &[u8], ceilings: Ceilings) -> bool {
    let parts = split(spelling);
    parts.is_beginning()
        && ceilings.allow_digits(parts.least_digits())
        && ceilings.allow_exponent(parts.exponent.map_or(0, <[u8]>::len), parts.normal_exponent())
}

/// Is this beginning of a number a number already?
pub fn is_number(beginning: &[u8]) -> bool {
    split(beginning).is_whole()
}
