//! The tests of nib_merge, one file for each kind of target and patch.

mod compare;
mod decided;
mod depth;
mod examples;
mod fences;
mod generated;
mod kinds;
mod laws;
mod lending;
mod longest;
mod names;
mod nulls;
mod objects;
mod outputs;
mod pairs;
mod refused;
mod rows;
mod short;
mod spelled;

use crate::group::Test;

pub fn tests() -> Vec<Test> {
    let kinds: [&[Test]; 17] = [
        &examples::TESTS,
        &decided::TESTS,
        &kinds::TESTS,
        &nulls::TESTS,
        &short::TESTS,
        &names::TESTS,
        &spelled::TESTS,
        &objects::TESTS,
        &rows::TESTS,
        &depth::TESTS,
        &generated::TESTS,
        &laws::TESTS,
        &outputs::TESTS,
        &lending::TESTS,
        &refused::TESTS,
        &fences::TESTS,
        &longest::TESTS,
    ];
    kinds.concat()
}
