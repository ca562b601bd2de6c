//! The C header, tried by a caller that is written in C.

use crate::group::{Group, Test};

pub const TESTS: [Test; 1] = [("the header for C", header)];

extern "C" {
    fn check_header() -> i32;
}

fn header(group: &mut Group) {
    let failed = unsafe { check_header() };
    group.judge(failed == 0, || format!("check {failed} of header.c fails"));
}
