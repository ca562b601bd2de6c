//! Texts and tables right beside memory that mustn't be touched, and texts in memory that can't be written.

use crate::fence::{Fenced, Side};
use crate::group::{shown, Group, Test};
use crate::random::Random;
use crate::{damage, library, reference, texts};

pub const TESTS: [Test; 1] = [("nothing outside of the slices is touched", beside_fences)];

fn beside_fences(group: &mut Group) {
    let mut random = Random::new(2);
    let (mut bytes, mut words) = (Fenced::new(16), Fenced::new(64));
    for _ in 0..4000 {
        let mut text = texts::text(&mut random, 12);
        damage::truncate(&mut text, &mut random);
        for side in [Side::Before, Side::Behind] {
            for length in [4 * text.len(), (4 * text.len()).saturating_sub(1)] {
                let mut expected = vec![9; length];
                let got = words.lent(&expected, side);
                let answer = library::read(bytes.bytes(&text, side), got);
                group.accepted += usize::from(answer.number == 0);
                let is_equal = answer == reference::read(&text, &mut expected) && got == expected;
                group.judge(is_equal, || format!("{}, {length} words", shown(&text)));
            }
        }
    }
}
