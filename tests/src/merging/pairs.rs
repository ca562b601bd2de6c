//! Pairs of a target and a patch that have to do with each other.

use crate::random::Random;
use crate::reference::{Decimal, Meaning};
use crate::respell::respelled;
use crate::spell;
use crate::writing::change::changed;
use std::collections::BTreeMap;

/// Names of which a few are prefixes of others and a few need escapes.
const NAMES: [&str; 10] = ["", "a", "b", "ab", "aa", "\n", "\"", "~", "\u{7f}", "\u{e9}"];

/// A value down to this depth. Its names are few, so that two values share many of them.
pub fn scarce(random: &mut Random, depth: usize) -> Meaning {
    match random.below(if depth == 0 { 4 } else { 10 }) {
        0 => Meaning::Null,
        1 => Meaning::Boolean(random.one_in(2)),
        2 => Meaning::Number(Decimal::normal(random.one_in(3), random.below(1200) as u64, random.below(5) as i64 - 2)),
        3 => Meaning::String(name(random)),
        4 => Meaning::Array((0..random.below(4)).map(|_| scarce(random, depth - 1)).collect()),
        _ => object(random, depth),
    }
}

/// An object down to this depth, which isn't 0.
pub fn object(random: &mut Random, depth: usize) -> Meaning {
    let most = random.pick(&[&3, &6, &12]);
    let members = random.below(*most);
    Meaning::Object((0..members).map(|_| (name(random), scarce(random, depth - 1))).collect())
}

fn name(random: &mut Random) -> Vec<u16> {
    spell::units(random.pick(&NAMES))
}

/// A patch that goes down the target's own paths: it removes, replaces, changes and leaves members, and adds some.
pub fn patch_for(target: &Meaning, random: &mut Random) -> Meaning {
    let Meaning::Object(members) = target else {
        return scarce(random, 2);
    };
    let mut changes = BTreeMap::new();
    for (name, value) in members {
        if let Some(change) = change_of(value, random) {
            changes.insert(name.clone(), change);
        }
    }
    while random.one_in(3) {
        changes.entry(name(random)).or_insert_with(|| scarce(random, 2));
    }
    Meaning::Object(changes)
}

/// Texts of an object down to this depth and of a patch for it, spelled by chance.
pub fn pair(random: &mut Random, depth: usize) -> [String; 2] {
    let target = object(random, depth);
    let patch = patch_for(&target, random);
    [target, patch].map(|meaning| respelled(&meaning, random))
}

/// What becomes of a member, or nothing where the patch doesn't name it.
fn change_of(value: &Meaning, random: &mut Random) -> Option<Meaning> {
    match random.below(10) {
        0 | 1 => Some(Meaning::Null),
        2 => Some(changed(value, random)),
        3 => Some(scarce(random, 2)),
        4 => Some(value.clone()),
        5 | 6 => Some(patch_for(value, random)),
        _ => None,
    }
}
