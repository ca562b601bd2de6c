//! Pointers near a given one.

use crate::random::Random;

const TELLING: &[u8] = b"//~~01129-ab\"\\ \n\x00\x7f\x80";

/// A pointer that differs in one place, which is chosen by chance.
pub fn near(pointer: &[u8], random: &mut Random) -> Vec<u8> {
    let mut other = pointer.to_vec();
    let place = random.below(pointer.len() + 1);
    match random.below(7) {
        0 => other.truncate(place),
        1 if place < other.len() => drop(other.remove(place)),
        2 if place < other.len() => other[place] = random.pick_byte(TELLING),
        3 => {
            other.extend_from_slice(random.pick(&[&b"/"[..], b"/0", b"/-", b"~", b"0", b"/a", b"~1", b"/01", b"\xff"]))
        }
        4 => return pointer.iter().flat_map(|&byte| if byte == b'~' { b"~0".to_vec() } else { vec![byte] }).collect(),
        5 => {
            return pointer
                .iter()
                .map(|&byte| if byte.is_ascii_digit() { random.pick_byte(b"0123") } else { byte })
                .collect()
        }
        _ => other.insert(place, random.pick_byte(TELLING)),
    }
    other
}
