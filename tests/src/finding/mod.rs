//! The tests of nib_find and nib_part_of, one file for each kind of pointer or text.

mod bytes;
mod compare;
mod decided;
mod depth;
mod examples;
mod fences;
mod generated;
mod indices;
mod lending;
mod longest;
mod names;
mod near;
mod objects;
mod refused;
mod scalars;
mod short;
mod spelled;

use crate::group::Test;

pub fn tests() -> Vec<Test> {
    let kinds: [&[Test]; 15] = [
        &examples::TESTS,
        &decided::TESTS,
        &short::TESTS,
        &bytes::TESTS,
        &indices::TESTS,
        &names::TESTS,
        &spelled::TESTS,
        &objects::TESTS,
        &scalars::TESTS,
        &depth::TESTS,
        &generated::TESTS,
        &lending::TESTS,
        &refused::TESTS,
        &fences::TESTS,
        &longest::TESTS,
    ];
    kinds.concat()
}
