//! The states of the grammar: what of a value has been read, and which bytes may stand next. 01 "The grammar".

pub const WHITESPACE: &[u8] = b" \t\n\r";
const VALUE: &[u8] = b" \t\n\r[{\"-0123456789tfn";
const DIGITS: &[u8] = b"0123456789";
const HEX: &[u8] = b"0123456789abcdefABCDEF";

/// A value read so far.
pub struct State {
    pub before: String,
    /// The bytes that may stand next, inside the value.
    pub may: Vec<u8>,
    /// Whether the value may be over here, so that what stands behind it may stand next.
    pub is_whole: bool,
    /// Bytes that may not stand next because of a ceiling, with its number.
    pub over: Vec<(u8, u32)>,
}

/// A state behind each of these beginnings.
fn behind(befores: &[&str], may: &[&[u8]], is_whole: bool, over: &[(&[u8], u32)]) -> Vec<State> {
    let over: Vec<(u8, u32)> =
        over.iter().flat_map(|&(bytes, number)| bytes.iter().map(move |&byte| (byte, number))).collect();
    let state = |before: &&str| State { before: before.to_string(), may: may.concat(), is_whole, over: over.clone() };
    befores.iter().map(state).collect()
}

pub fn states() -> Vec<State> {
    [values(), containers(), words(), strings(), numbers(), number_ceilings()].into_iter().flatten().collect()
}

/// Before a value, and behind one that can't go on.
fn values() -> Vec<State> {
    let wholes = ["null", "true", "false", "\"\"", "\"a\"", "[]", "{}", "[ ]", "[0]", "[[]]", "{\"a\":0}", "{\"\":{}}"];
    [behind(&["", " ", "\t\n\r"], &[VALUE], false, &[]), behind(&wholes, &[], true, &[])]
        .into_iter()
        .flatten()
        .collect()
}

fn containers() -> Vec<State> {
    [
        behind(&["[", "[ "], &[VALUE, b"]"], false, &[]),
        behind(&["[0 ", "[null", "[\"a\"", "[[]", "[{}", "[0,[]\n"], &[WHITESPACE, b",]"], false, &[]),
        behind(&["[0,", "[null, ", "[[],", "[0,0,"], &[VALUE], false, &[]),
        behind(&["{", "{ "], &[WHITESPACE, b"\"}"], false, &[]),
        behind(&["{\"a\"", "{\"\" ", "{\"a\":0,\"b\""], &[WHITESPACE, b":"], false, &[]),
        behind(&["{\"a\":", "{\"a\" : ", "{\"a\":0,\"b\":"], &[VALUE], false, &[]),
        behind(
            &["{\"a\":0 ", "{\"a\":null", "{\"a\":\"\"", "{\"a\":[]", "{\"a\":{}"],
            &[WHITESPACE, b",}"],
            false,
            &[],
        ),
        behind(&["{\"a\":0,", "{\"a\":{} , "], &[WHITESPACE, b"\""], false, &[]),
    ]
    .into_iter()
    .flatten()
    .collect()
}

/// Behind each letter of each word but its last.
fn words() -> Vec<State> {
    let letters = |word: &'static str| {
        (1..word.len()).flat_map(move |at| behind(&[&word[..at]], &[&word.as_bytes()[at..=at]], false, &[]))
    };
    ["null", "true", "false"].into_iter().flat_map(letters).collect()
}

fn strings() -> Vec<State> {
    let plain: Vec<u8> = (0x20..=0x7F).collect();
    let but_quote: Vec<u8> = plain.iter().copied().filter(|&byte| byte != b'"').collect();
    let high: Vec<u8> = (0x80..=0xFF).collect();
    let insides =
        ["\"", "\"a", "\"\\n", "\"\\\"", "\"\\u0041", "\"\\uD800", "{\"", "{\"b", "{\"a\":0,\"b", "{\"a\":0,\"aa"];
    let twins = ["{\"a\":0,\"a", "{\"a\":0,\"\\u0061", "{\"\\n\":0,\"\\u000A", "{\"\":0,\"", "{\"b\":0,\"a\":0,\"b"];
    [
        behind(&insides, &[&plain], false, &[(&high, 9)]),
        behind(&twins, &[&but_quote], false, &[(&high, 9), (b"\"", 8)]),
        behind(&["\"\\", "\"a\\", "{\"\\", "\"\\\\\\"], &[b"\"\\/bfnrtu"], false, &[]),
        behind(&["\"\\u", "\"\\u0", "\"\\uD8", "\"\\u12a", "{\"\\u", "{\"\\u00F"], &[HEX], false, &[]),
    ]
    .into_iter()
    .flatten()
    .collect()
}

fn numbers() -> Vec<State> {
    [
        behind(&["-"], &[DIGITS], false, &[]),
        behind(&["0", "-0"], &[b".eE"], true, &[]),
        behind(&["1", "-9", "12", "-305"], &[DIGITS, b".eE"], true, &[]),
        behind(&["0.", "-0.", "1.", "-12."], &[DIGITS], false, &[]),
        behind(&["0.5", "-0.0", "1.50", "-12.25"], &[DIGITS, b"eE"], true, &[]),
        behind(&["0e", "1E", "-12e", "1.5E"], &[DIGITS, b"+-"], false, &[]),
        behind(&["0e+", "1E-", "-12e-", "1.5E+"], &[DIGITS], false, &[]),
        behind(&["0e0", "1E9", "-12e-1", "1.5E+00"], &[DIGITS], true, &[]),
    ]
    .into_iter()
    .flatten()
    .collect()
}

/// Numbers at the ceilings of 18 digits (6) and of the exponent (7).
fn number_ceilings() -> Vec<State> {
    [
        behind(&["12345678901234567", "-99999999999999999"], &[DIGITS, b".eE"], true, &[]),
        behind(&["123456789012345678", "-999999999999999999"], &[b"eE"], true, &[(DIGITS, 6), (b".", 6)]),
        behind(&["12345678901234567."], &[DIGITS], false, &[]),
        behind(&["12345678901234567.8", "-0.12345678901234567"], &[b"eE"], true, &[(DIGITS, 6)]),
        behind(&["1e99", "1E+99", "-1e-99", "0e99", "0.0e-99", "1.0e99", "10e-99"], &[DIGITS], true, &[]),
        behind(&["10e99", "-1.5e-99", "1.10E-99", "2.50e-99", "30.0e+99"], &[b"012345678"], true, &[(b"9", 7)]),
        behind(&["100e99", "1.25e-99", "-100.0E99"], &[b"01234567"], true, &[(b"89", 7)]),
        behind(&["1e000", "1e999", "0e999", "-1.5e-998", "1e+100"], &[], true, &[(DIGITS, 7)]),
    ]
    .into_iter()
    .flatten()
    .collect()
}
