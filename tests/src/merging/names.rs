//! Names that target and patch share or don't: in any order, in any spelling, and as prefixes of each other.

use crate::group::{Group, Test};
use crate::members::numbered;
use crate::random::Random;
use crate::spell;
use crate::writing::names::{permute, SETS, UNITS};

pub const TESTS: [Test; 4] = [
    ("all orders of six names, parted between target and patch", orders),
    ("units in all spellings across target and patch", pairs),
    ("names that are prefixes of each other, across target and patch", prefixes),
    ("objects of up to 40 members with patches by chance", by_chance),
];

fn quoted(names: &[&str]) -> Vec<String> {
    names.iter().map(|name| format!("\"{name}\"")).collect()
}

/// The first names stand in the target, and the last in the patch; some may stand in both.
fn orders(group: &mut Group) {
    for mut set in SETS {
        let names = set.len();
        permute(&mut set, names, &mut |order| {
            let names = quoted(order);
            for (end, start) in [(3, 3), (4, 2), (5, 1), (6, 0), (1, 0), (6, 5)] {
                group.merge_exactly(numbered(&names[..end]), numbered(&names[start..]));
            }
            group.merge_exactly(numbered(&names[..5]), removing(&names[2..]));
        });
    }
}

/// A patch that removes all these names.
fn removing(names: &[String]) -> String {
    let members: Vec<String> = names.iter().map(|name| format!("{name}:null")).collect();
    format!("{{{}}}", members.join(","))
}

fn pairs(group: &mut Group) {
    let names: Vec<String> = UNITS.iter().flat_map(|&unit| spell::spellings(unit)).collect();
    for one in &names {
        for two in &names {
            group.merge(format!("{{\"{one}\":1}}"), format!("{{\"{two}\":null}}"));
            group.merge(format!("{{\"a{one}\":1,\"a\":3}}"), format!("{{\"\\u0061{two}x\":2,\"\\u0061{two}\":4}}"));
            group.merge(format!("{{\"{one}\":{{\"{two}\":1}}}}"), format!("{{\"{two}\":{{\"{one}\":2}}}}"));
        }
    }
}

fn prefixes(group: &mut Group) {
    let mut random = Random::new(80);
    for round in 0..800 {
        let mut object = || {
            let mut lengths: Vec<usize> = (0..1 + round % 40).filter(|_| random.below(3) > 0).collect();
            random.shuffle(&mut lengths);
            let name = |&length: &usize| spell::quoted(&vec![0x61; length], &mut random);
            lengths.iter().map(name).collect::<Vec<String>>()
        };
        let (target, patch) = (object(), object());
        group.merge(numbered(&target), numbered(&patch));
        group.merge(numbered(&target), removing(&patch));
    }
}

/// Each name of a row of numbers stands in the target, in the patch or in both, to be set or to be removed.
fn by_chance(group: &mut Group) {
    let mut random = Random::new(81);
    for round in 0..2000 {
        let width = 1 + random.below(20);
        let (share, removed) = (1 + random.below(8), random.below(4));
        let mut object = |is_patch: bool| {
            let mut numbers: Vec<usize> = (0..2 + round % 39).filter(|_| random.below(8) < share).collect();
            random.shuffle(&mut numbers);
            let member = |number: &usize| {
                let name = spell::quoted(&spell::units(&format!("{number:0width$}")), &mut random);
                let is_null = is_patch && random.below(4) < removed;
                format!("{name}:{}", if is_null { "null".into() } else { number.to_string() })
            };
            format!("{{{}}}", numbers.iter().map(member).collect::<Vec<String>>().join(","))
        };
        let (target, patch) = (object(false), object(true));
        group.merge(target, patch);
    }
}
