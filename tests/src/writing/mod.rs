//! The tests of nib_write, one file for each kind of text.

pub mod change;
pub mod compare;
mod decided;
mod depth;
mod examples;
mod fences;
mod generated;
mod longest;
mod meanings;
pub mod names;
mod numbers;
mod objects;
mod outputs;
mod refused;
mod short;
mod spaces;
mod spelled;
mod strings;

use crate::group::Test;

pub fn tests() -> Vec<Test> {
    let kinds: [&[Test]; 16] = [
        &examples::TESTS,
        &decided::TESTS,
        &short::TESTS,
        &spaces::TESTS,
        &strings::TESTS,
        &numbers::TESTS,
        &names::TESTS,
        &spelled::TESTS,
        &objects::TESTS,
        &depth::TESTS,
        &meanings::TESTS,
        &generated::TESTS,
        &outputs::TESTS,
        &refused::TESTS,
        &fences::TESTS,
        &longest::TESTS,
    ];
    kinds.concat()
}
