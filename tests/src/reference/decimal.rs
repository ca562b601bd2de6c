//! Decimals in their normal form. 01 "What a text means".

#[derive(Clone, Debug, PartialEq, Eq, PartialOrd, Ord)]
pub struct Decimal {
    pub is_negative: bool,
    pub coefficient: u64,
    pub exponent: i64,
}

impl Decimal {
    pub const ZERO: Decimal = Decimal { is_negative: false, coefficient: 0, exponent: 0 };

    /// The decimal that a number of the grammar means. Its digits are at most 18, so they fit the coefficient.
    pub fn of(spelling: &str) -> Decimal {
        let unsigned = spelling.trim_start_matches('-');
        let (digits, exponent) = unsigned.split_once(['e', 'E']).unwrap_or((unsigned, "0"));
        let (whole, fraction) = digits.split_once('.').unwrap_or((digits, ""));
        let coefficient = format!("{whole}{fraction}").parse().expect("digits");
        let exponent: i64 = exponent.parse().expect("an optional sign and digits");
        Decimal::normal(spelling.starts_with('-'), coefficient, exponent - fraction.len() as i64)
    }

    pub fn normal(is_negative: bool, coefficient: u64, exponent: i64) -> Decimal {
        match coefficient {
            0 => Decimal::ZERO,
            _ if coefficient % 10 == 0 => Decimal::normal(is_negative, coefficient / 10, exponent + 1),
            _ => Decimal { is_negative, coefficient, exponent },
        }
    }
}
