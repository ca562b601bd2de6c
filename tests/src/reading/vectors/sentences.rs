//! Every sentence of the grammar with few values is read, and has as many records as values.

use super::tokens::{sentences, written};
use crate::answer::Answer;
use crate::group::{Group, Test};

pub const TESTS: [Test; 1] = [("every sentence of up to 5 values", every_sentence)];

fn every_sentence(group: &mut Group) {
    for values in 1..=5 {
        for sentence in sentences(values) {
            for around in [&b""[..], b" ", b"\n", b"\t", b"\r", b" \t\n\r "] {
                group.read_known(&written(&sentence, around).0, Answer::accepted(values));
            }
        }
    }
}
