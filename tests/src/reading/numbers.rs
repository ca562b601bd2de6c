//! Numbers on both sides of every edge of the ceilings on digits (6) and exponents (7).

use crate::group::{Group, Test};

pub const TESTS: [Test; 3] = [
    ("digits of every length before and behind the point", lengths),
    ("exponents around the range", ranges),
    ("numbers made of all kinds of parts", parts),
];

/// Compares a number by itself, with either sign, in containers, with a digit more, and as a text that goes on wrongly.
fn in_each_place(group: &mut Group, number: &str) {
    for text in [
        format!("{number}"),
        format!("-{number}"),
        format!("{number} "),
        format!("[{number},{number}]"),
        format!("{{\"a\":{number}}}"),
        format!("{number}0"),
        format!("[{number}x"),
    ] {
        group.read(text.as_bytes());
    }
}

fn lengths(group: &mut Group) {
    for digit in ["0", "1", "9"] {
        for whole in 0..=20 {
            in_each_place(group, &digit.repeat(whole));
            in_each_place(group, &format!("{}e1", digit.repeat(whole)));
            for fraction in 0..=20 {
                in_each_place(group, &format!("{}.{}", digit.repeat(whole), "7".repeat(fraction)));
                in_each_place(group, &format!("0.{}{}e0", "0".repeat(whole), digit.repeat(fraction)));
            }
        }
    }
}

/// With z zeros at the coefficient's end and f digits behind the point the exponent e becomes e + z - f.
fn ranges(group: &mut Group) {
    for zeros in 0..=17_usize {
        for fraction in 0..=17_usize {
            let digits = format!("{}{}", "7".repeat(18 - zeros), "0".repeat(zeros));
            let (whole, behind) = digits.split_at(18 - fraction);
            let number = if fraction > 0 { format!("{whole}.{behind}") } else { digits };
            let shift = zeros as i64 - fraction as i64;
            for step in -2..=2 {
                let (highest, lowest) = (999 - shift + step, -999 - shift + step);
                in_each_place(group, &format!("{number}e{highest}"));
                in_each_place(group, &format!("{number}E+{highest}"));
                in_each_place(group, &format!("{number}e{lowest}"));
            }
        }
    }
    exponents_of_zero(group);
}

fn exponents_of_zero(group: &mut Group) {
    for zero in ["0", "0.0", "0.00000000000000000", "0.000000000000000000"] {
        for exponent in ["0", "9", "00", "99", "000", "998", "999", "0000", "1000", "9999"] {
            for sign in ["", "+", "-"] {
                in_each_place(group, &format!("{zero}e{sign}{exponent}"));
            }
        }
    }
}

fn parts(group: &mut Group) {
    let wholes = ["", "0", "00", "5", "10", "1000", "100000000000000000", "999999999999999999", "9999999999999999990"];
    let fractions = ["", ".", ".0", ".5", ".50", ".05", ".000", ".99999999999999999", ".000000000000000010", ".."];
    let exponents = ["", "0", "1", "9", "09", "10", "99", "000", "099", "100", "980", "981", "982", "983", "984"];
    let edges = ["996", "997", "998", "999", "0000", "0999", "1000", "9999", "99999", "e1", "+1", ".5"];
    for whole in wholes {
        for fraction in fractions {
            group.read(format!("{whole}{fraction}").as_bytes());
            for exponent in exponents.iter().chain(&edges) {
                for letter in ["e", "E+", "e-"] {
                    group.read(format!("[-{whole}{fraction}{letter}{exponent}]").as_bytes());
                }
            }
        }
    }
}
