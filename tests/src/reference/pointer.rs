//! The tokens of a pointer, or the place of its refusal as 10. 01 "Pointer".

const MAX_POINTER: usize = 65_536;

/// What follows a `/` up to the next one: the offset of the `/`, and the units meant.
pub struct Token {
    pub slash: usize,
    pub units: Vec<u16>,
}

/// 10 has three places, of which the first counts: the first byte that can't stand, the length if the pointer ends in a
/// bare `~`, and 65,536 if it is longer.
pub fn tokens(pointer: &[u8]) -> Result<Vec<Token>, usize> {
    let wrong_byte = (0..pointer.len()).find(|&at| !may_stand(pointer, at));
    let bare_end = pointer.ends_with(b"~").then_some(pointer.len());
    let too_long = (pointer.len() > MAX_POINTER).then_some(MAX_POINTER);
    match [wrong_byte, bare_end, too_long].into_iter().flatten().min() {
        Some(place) => Err(place),
        None => Ok(split(pointer)),
    }
}

/// May this byte stand behind the one before it? A `~` that may stand is never the second byte of a pair.
fn may_stand(pointer: &[u8], at: usize) -> bool {
    let byte = pointer[at];
    match at.checked_sub(1).map(|before| pointer[before]) {
        None => byte == b'/',
        Some(b'~') => byte == b'0' || byte == b'1',
        Some(_) => byte < 0x80,
    }
}

/// The empty pointer has no tokens; in any other a token follows each `/`.
fn split(pointer: &[u8]) -> Vec<Token> {
    let slashes = (0..pointer.len()).filter(|&at| pointer[at] == b'/');
    let rests = pointer.split(|&byte| byte == b'/').skip(1);
    slashes.zip(rests).map(|(slash, written)| Token { slash, units: units(written) }).collect()
}

/// Each `~` parts what is written before it from the digit that tells what is meant.
fn units(written: &[u8]) -> Vec<u16> {
    let mut pieces = written.split(|&byte| byte == b'~');
    let mut meant = pieces.next().unwrap_or(b"").to_vec();
    for piece in pieces {
        meant.push(if piece[0] == b'0' { b'~' } else { b'/' });
        meant.extend_from_slice(&piece[1..]);
    }
    meant.into_iter().map(u16::from).collect()
}
