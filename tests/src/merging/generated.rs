//! Generated pairs: of few names, of a target and a patch for it, of texts of all kinds, and with slices lent again.

use super::pairs::{object, pair, patch_for, scarce};
use crate::group::{shown, Group, Test};
use crate::random::Random;
use crate::respell::respelled;
use crate::writing::change::changed;
use crate::{library, reference, texts};

pub const TESTS: [Test; 5] = [
    ("generated pairs of few names", few_names),
    ("generated targets with patches for them", related),
    ("generated texts with patches for them", of_all_kinds),
    ("generated texts with themselves, changed in some places", themselves),
    ("generated pairs with slices that are lent again and again", again),
];

fn few_names(group: &mut Group) {
    let mut random = Random::new(92);
    for round in 0..12_000 {
        let (target, patch) = (scarce(&mut random, 1 + round % 4), object(&mut random, 1 + round % 3));
        group.merge(respelled(&target, &mut random), respelled(&patch, &mut random));
    }
}

fn related(group: &mut Group) {
    let mut random = Random::new(93);
    for round in 0..12_000 {
        let [target, patch] = pair(&mut random, 1 + round % 4);
        group.merge(target, patch);
    }
}

fn of_all_kinds(group: &mut Group) {
    let mut random = Random::new(94);
    for round in 0..2000 {
        let text = texts::accepted(&mut random, 1 + round % 40);
        let patch = patch_for(&reference::meaning(&text), &mut random);
        group.merge(&text, respelled(&patch, &mut random));
        group.merge(&text, texts::text(&mut random, 1 + round % 20));
    }
}

fn themselves(group: &mut Group) {
    let mut random = Random::new(95);
    for round in 0..2000 {
        let text = texts::accepted(&mut random, 1 + round % 20);
        let mut other = reference::meaning(&text);
        for _ in 0..round % 5 {
            other = changed(&other, &mut random);
        }
        group.merge(&text, respelled(&other, &mut random));
        group.merge(respelled(&other, &mut random), &text);
    }
}

/// Whatever an earlier call left in tables and output, the next is as it must be.
fn again(group: &mut Group) {
    let mut random = Random::new(96);
    let (mut expected_words, mut expected_out) = ([vec![3; 20_000], vec![5; 20_000]], vec![b'#'; 4000]);
    let (mut words, mut out) = (expected_words.clone(), expected_out.clone());
    for round in 0..6000 {
        let pair = pair(&mut random, 1 + round % 4);
        let texts = pair.each_ref().map(|text| text.as_bytes());
        let lengths = texts.map(|text| (4 * text.len() + random.below(9)).saturating_sub(random.below(5)).min(20_000));
        let room = random.below(out.len().min(2 * texts[0].len()) + 1);
        let expected = reference::merge(texts, fronts(&mut expected_words, lengths), &mut expected_out[..room]);
        let answer = library::merge(texts, fronts(&mut words, lengths), &mut out[..room]);
        group.accepted += usize::from(answer.number == 0);
        let is_equal = answer == expected && words == expected_words && out == expected_out;
        let tell = || format!("{:?}\n  expected {expected:?}\n       got {answer:?}", texts.map(shown));
        group.judge(is_equal, tell);
    }
}

/// The first words of each table.
fn fronts(tables: &mut [Vec<u32>; 2], lengths: [usize; 2]) -> [&mut [u32]; 2] {
    let [target, patch] = tables;
    [&mut target[..lengths[0]], &mut patch[..lengths[1]]]
}
