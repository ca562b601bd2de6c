//! Objects of many members: spellings of their names, and orders to put them in.

use crate::random::Random;
use crate::spell;

/// An object of these names, each with a value.
pub fn object(names: &[String]) -> String {
    let members: Vec<String> = names.iter().map(|name| format!("{name}:0")).collect();
    format!("{{{}}}", members.join(","))
}

/// An object of these names, each with another value.
pub fn numbered(names: &[String]) -> String {
    let members: Vec<String> = names.iter().enumerate().map(|(number, name)| format!("{name}:{number}")).collect();
    format!("{{{}}}", members.join(","))
}

/// How a name is made of a number, so that names and numbers have the same order.
type Spelling = fn(usize) -> String;

pub const SPELLINGS: [Spelling; 4] = [plain, escaped, long_prefix, of_many_lengths];

pub fn plain(number: usize) -> String {
    format!("\"{number:06}\"")
}

fn escaped(number: usize) -> String {
    spell::quoted_in_hex(&spell::units(&format!("{number:06}")))
}

fn long_prefix(number: usize) -> String {
    format!("\"{}{number:06}\"", "department/".repeat(9))
}

/// Names of many lengths, of which many are prefixes of many others.
fn of_many_lengths(number: usize) -> String {
    format!("\"{}\"", format!("{:b}", number + 1).replace('0', "\\u0030"))
}

/// The numbers below the limit: sorted, reversed, by chance, and from both ends in turns.
pub fn ordered(random: &mut Random, limit: usize) -> [Vec<usize>; 4] {
    let sorted: Vec<usize> = (0..limit).collect();
    let reversed = sorted.iter().rev().copied().collect();
    let mut shuffled = sorted.clone();
    random.shuffle(&mut shuffled);
    let in_turns = sorted.iter().map(|&rank| if rank % 2 == 0 { rank / 2 } else { limit - 1 - rank / 2 }).collect();
    [sorted, reversed, shuffled, in_turns]
}
