//! Numbers of all shapes in their normal form.

use crate::group::{Group, Test};
use crate::random::Random;

pub const TESTS: [Test; 5] = [
    ("numbers whose canonical text is known", known),
    ("all numbers of a few digits", few_digits),
    ("every exponent from -1010 to 1010", exponents),
    ("zeros at either end and the point at every place of 18 digits", shifts),
    ("numbers of up to 18 digits by chance", by_chance),
];

const KNOWN: [(&str, &str); 36] = [
    ("0", "0"),
    ("-0", "0"),
    ("0.0", "0"),
    ("-0.000e-5", "0"),
    ("0e999", "0"),
    ("0E-999", "0"),
    ("0.00000000000000000e+000", "0"),
    ("1", "1"),
    ("-1", "-1"),
    ("10", "1e1"),
    ("-10", "-1e1"),
    ("101", "101"),
    ("1010", "101e1"),
    ("1e0", "1"),
    ("1e000", "1"),
    ("1E+0", "1"),
    ("1e-0", "1"),
    ("1E+05", "1e5"),
    ("1e+010", "1e10"),
    ("1e-007", "1e-7"),
    ("1.0", "1"),
    ("1.50", "15e-1"),
    ("-0.5", "-5e-1"),
    ("0.050", "5e-2"),
    ("12.30e1", "123"),
    ("12.30e2", "123e1"),
    ("12.30e-2", "123e-3"),
    ("100e-2", "1"),
    ("0.001e3", "1"),
    ("1000e-999", "1e-996"),
    ("1.000e999", "1e999"),
    ("100000000000000000e982", "1e999"),
    ("1.5000e-998", "15e-999"),
    ("999999999999999999", "999999999999999999"),
    ("-99999999999999999.9e-998", "-999999999999999999e-999"),
    ("0.00000000000000001e-9", "1e-26"),
];

fn known(group: &mut Group) {
    for (text, canonical) in KNOWN {
        group.write_known(text.as_bytes(), canonical.as_bytes());
        group.write_known(format!("[{text} ,{text}]").as_bytes(), format!("[{canonical},{canonical}]").as_bytes());
    }
}

/// All strings of one to so many of the digits.
fn strings(digits: &str, longest: usize) -> Vec<String> {
    let mut all = vec![String::new()];
    let mut start = 0;
    for _ in 0..longest {
        let end = all.len();
        for shorter in start..end {
            all.extend(digits.chars().map(|digit| format!("{}{digit}", all[shorter])).collect::<Vec<_>>());
        }
        start = end;
    }
    all.split_off(1)
}

/// Every sign, whole part, fraction and exponent of up to three digits that are 0 or another.
fn few_digits(group: &mut Group) {
    let wholes: Vec<String> =
        strings("07", 3).into_iter().filter(|whole| whole == "0" || whole.starts_with('7')).collect();
    let fractions: Vec<String> = strings("03", 3).into_iter().map(|digits| format!(".{digits}")).collect();
    let written = |letter: &'static str| strings("01", 3).into_iter().map(move |digits| format!("{letter}{digits}"));
    let exponents: Vec<String> = ["e", "E", "e+", "E-"].into_iter().flat_map(written).chain([String::new()]).collect();
    for whole in wholes {
        for fraction in fractions.iter().chain([&String::new()]) {
            for exponent in &exponents {
                group.write(format!("{whole}{fraction}{exponent}").as_bytes());
                group.write(format!("[-{whole}{fraction}{exponent}]").as_bytes());
            }
        }
    }
}

/// Shapes that are in range at one end and not at the other; where they aren't they are refused.
fn exponents(group: &mut Group) {
    let shapes = ["0", "-0.0", "1", "10", "-1.5", "0.001", "123456789012345678", "100000000000000000"];
    for shape in shapes {
        for exponent in -1010..=1010 {
            group.write(format!("{shape}e{exponent}").as_bytes());
        }
    }
}

fn shifts(group: &mut Group) {
    for zeros in 0..=18_usize {
        for behind in 0..=17_usize {
            let digits = format!("{}{}", "7".repeat(18 - zeros), "0".repeat(zeros));
            let (whole, fraction) = digits.split_at(18 - behind);
            let point = if behind > 0 { "." } else { "" };
            let before = format!("0.{}{}", "0".repeat(behind), &digits[..17 - behind.min(16)]);
            for exponent in ["", "e1", "e+18", "E-18", "e-980", "e981"] {
                group.write(format!("{whole}{point}{fraction}{exponent}").as_bytes());
                group.write(format!("-{before}{exponent}").as_bytes());
            }
        }
    }
}

fn by_chance(group: &mut Group) {
    let mut random = Random::new(43);
    for round in 0..6000 {
        let length = 1 + round % 18;
        let digits: String = (0..length).map(|_| char::from(random.pick_byte(b"0123456789"))).collect();
        let (whole, fraction) = digits.split_at(1 + random.below(length));
        let whole = if whole.starts_with('0') { "0" } else { whole };
        let point = if fraction.is_empty() { "" } else { "." };
        let exponent = random.below(1970) as i64 - 985;
        let sign = random.pick(&["", "-"]);
        group.write(format!("{sign}{whole}{point}{fraction}").as_bytes());
        group.write(format!("{{\"a\":{sign}{whole}{point}{fraction}e{exponent}}}").as_bytes());
    }
}
