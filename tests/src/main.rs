//! Compares the library with a reference that is written from docs/01-scope.md. Each test is a named group of
//! comparisons; the last line counts the tests that passed and failed. Each entry has its tests in a module such as
//! `reading`, and a function of the same name in `library` and in `reference`.

mod answer;
mod damage;
mod fence;
mod finding;
mod group;
mod header;
mod lent;
mod library;
mod members;
mod merging;
mod part;
mod point;
mod random;
mod reading;
mod reference;
mod respell;
mod spell;
mod texts;
mod writing;

use group::{Group, Test};
use std::io::Write;
use std::process::ExitCode;

/// Runs one test. Its name is printed first, so that it is known should the library crash.
fn passes(&(name, run): &Test) -> bool {
    println!("{name}");
    std::io::stdout().flush().expect("standard output");
    let mut group = Group::default();
    run(&mut group);
    println!("  {} comparisons, {} failed, {} texts accepted", group.compared, group.failed, group.accepted);
    group.failed == 0 && group.compared > 0
}

fn main() -> ExitCode {
    let entries = [reading::tests(), writing::tests(), finding::tests(), merging::tests()];
    let tests = [&header::TESTS[..], &entries.concat()].concat();
    let passed = tests.iter().filter(|test| passes(test)).count();
    let failed = tests.len() - passed;
    println!("{passed} passed, {failed} failed");
    if failed == 0 {
        ExitCode::SUCCESS
    } else {
        ExitCode::FAILURE
    }
}
