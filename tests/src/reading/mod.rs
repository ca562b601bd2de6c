//! The tests of nib_read, one file for each kind of text.

mod bytes;
mod compare;
pub mod decided;
mod depth;
pub mod examples;
mod fences;
mod generated;
mod long;
mod names;
mod numbers;
mod objects;
mod short;
mod spaces;
mod strings;
pub mod tables;
mod twins;
mod vectors;

use crate::group::Test;

pub fn tests() -> Vec<Test> {
    let kinds: [&[Test]; 15] = [
        &examples::TESTS,
        &decided::TESTS,
        &short::TESTS,
        &bytes::TESTS,
        &spaces::TESTS,
        &strings::TESTS,
        &numbers::TESTS,
        &depth::TESTS,
        &names::TESTS,
        &twins::TESTS,
        &objects::TESTS,
        &generated::TESTS,
        &tables::TESTS,
        &fences::TESTS,
        &long::TESTS,
    ];
    [kinds.concat(), vectors::tests()].concat()
}
