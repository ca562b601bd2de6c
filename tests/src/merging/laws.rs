//! Laws of merging. Here the library is compared with itself alone.

use super::compare::merged;
use super::pairs::{object, pair, patch_for, scarce};
use crate::group::{shown, Group, Test};
use crate::random::Random;
use crate::reference::Meaning;
use crate::respell::respelled;
use crate::writing::compare::written;

pub const TESTS: [Test; 6] = [
    ("an empty patch gives the canonical text of an object", empty_patch),
    ("a patch that is no object gives its canonical text", no_object),
    ("merging twice gives the same as once", twice),
    ("replicas with texts of the same meaning write the same bytes", replicas),
    ("the result is read, and written as it stands", as_it_stands),
    ("a patch that names each member alone, in any order", one_by_one),
];

fn tell(target: &str, patch: &str) -> String {
    format!("{} with {}", shown(target.as_bytes()), shown(patch.as_bytes()))
}

fn empty_patch(group: &mut Group) {
    let mut random = Random::new(97);
    for round in 0..3000 {
        let target = respelled(&object(&mut random, 1 + round % 4), &mut random);
        let patch = random.pick(&["{}", " { } ", "{\n}"]);
        let (result, canonical) = (merged(&target, patch), written(target.as_bytes()));
        group.judge(result.is_some() && result == canonical, || tell(&target, patch));
    }
}

fn no_object(group: &mut Group) {
    let mut random = Random::new(98);
    for round in 0..3000 {
        let target = respelled(&scarce(&mut random, 1 + round % 4), &mut random);
        let elements = (0..round % 4).map(|_| scarce(&mut random, 2)).collect();
        let patch = if round % 3 == 0 { scarce(&mut random, 0) } else { Meaning::Array(elements) };
        let patch = respelled(&patch, &mut random);
        let (result, canonical) = (merged(&target, &patch), written(patch.as_bytes()));
        group.judge(result.is_some() && result == canonical, || tell(&target, &patch));
    }
}

fn twice(group: &mut Group) {
    let mut random = Random::new(99);
    for round in 0..3000 {
        let [target, patch] = pair(&mut random, 1 + round % 4);
        let once = merged(&target, &patch);
        let again = once.as_ref().and_then(|once| merged(once, &patch));
        group.judge(once.is_some() && again == once, || tell(&target, &patch));
    }
}

fn replicas(group: &mut Group) {
    let mut random = Random::new(100);
    for round in 0..3000 {
        let target = object(&mut random, 1 + round % 4);
        let patch = patch_for(&target, &mut random);
        let mut replica = || merged(respelled(&target, &mut random), respelled(&patch, &mut random));
        let (one, two, three) = (replica(), replica(), replica());
        group.judge(one.is_some() && one == two && two == three, || {
            tell(&respelled(&target, &mut random), &respelled(&patch, &mut random))
        });
    }
}

fn as_it_stands(group: &mut Group) {
    let mut random = Random::new(101);
    for round in 0..3000 {
        let [target, patch] = pair(&mut random, 1 + round % 4);
        let result = merged(&target, &patch);
        let again = result.as_ref().and_then(|result| written(result));
        group.judge(result.is_some() && again == result, || tell(&target, &patch));
    }
}

/// Members are independent of each other: a patch may be cut into patches of one member each.
fn one_by_one(group: &mut Group) {
    let mut random = Random::new(102);
    for round in 0..1500 {
        let target = object(&mut random, 1 + round % 4);
        let patch = patch_for(&target, &mut random);
        let Meaning::Object(changes) = &patch else { continue };
        let mut singles: Vec<Meaning> =
            changes.iter().map(|(name, value)| Meaning::Object([(name.clone(), value.clone())].into())).collect();
        random.shuffle(&mut singles);
        let (target, patch) = (respelled(&target, &mut random), respelled(&patch, &mut random));
        let mut result = merged(&target, "{}");
        for single in &singles {
            result = result.and_then(|text| merged(text, respelled(single, &mut random)));
        }
        group.judge(result.is_some() && result == merged(&target, &patch), || tell(&target, &patch));
    }
}
