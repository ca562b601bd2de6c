//! Generated texts of all kinds, and the same with damage.

use crate::damage::{self, Damage};
use crate::group::{Group, Test};
use crate::random::Random;
use crate::texts;

pub const TESTS: [Test; 7] = [
    ("generated texts", |group| damaged(group, 10, &[])),
    ("generated texts without a slice", |group| damaged(group, 11, &[damage::delete])),
    ("generated texts with a byte inserted", |group| damaged(group, 13, &[damage::insert])),
    ("generated texts with a byte replaced", |group| damaged(group, 14, &[damage::replace])),
    ("generated texts cut short", |group| damaged(group, 15, &[damage::truncate])),
    ("generated texts with a slice doubled", |group| damaged(group, 16, &[damage::double])),
    ("generated texts damaged twice", |group| {
        damaged(group, 17, &[damage::double, damage::replace]);
        damaged(group, 18, &[damage::double, damage::insert]);
        damaged(group, 19, &[damage::delete, damage::truncate]);
    }),
];

fn damaged(group: &mut Group, seed: u64, damages: &[Damage]) {
    let mut random = Random::new(seed);
    for round in 0..6000 {
        let mut text = texts::text(&mut random, 1 + round % 30);
        for damage in damages {
            damage(&mut text, &mut random);
        }
        group.read(&text);
    }
}
