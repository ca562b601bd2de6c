//! Texts made from the rules of 01 "The grammar", with answers that follow from the rule that made them, so that they
//! judge the reference too: every byte in every state, every small sentence, and every fault at every token of it.

mod bytes;
mod faults;
mod sentences;
mod states;
mod tokens;
mod wrong;

use crate::group::Test;

pub fn tests() -> Vec<Test> {
    [&bytes::TESTS[..], &sentences::TESTS, &faults::TESTS].concat()
}
