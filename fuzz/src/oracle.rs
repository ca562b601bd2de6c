//! The tests' reference behind C functions, for the fuzzing target to compare with. It is compiled with counters, so
//! that its branches guide the fuzzer too.

#![allow(dead_code, unused_imports)]

#[path = "../../tests/src/answer.rs"]
mod answer;
#[path = "../../tests/src/part.rs"]
mod part;
#[path = "../../tests/src/reference/mod.rs"]
mod reference;

use answer::Answer;

/// A lent slice, which may be null where it is empty.
unsafe fn lent<'a, T>(at: *const T, length: usize) -> &'a [T] {
    match length {
        0 => &[],
        _ => std::slice::from_raw_parts(at, length),
    }
}

unsafe fn lent_mut<'a, T>(at: *mut T, length: usize) -> &'a mut [T] {
    match length {
        0 => &mut [],
        _ => std::slice::from_raw_parts_mut(at, length),
    }
}

#[no_mangle]
unsafe extern "C" fn oracle_read(text: *const u8, length: usize, table: *mut u32, words: usize) -> Answer {
    reference::read(lent(text, length), lent_mut(table, words))
}

#[no_mangle]
unsafe extern "C" fn oracle_write(text: *const u8, length: usize, words: usize, out: *mut u8, room: usize) -> Answer {
    reference::write(lent(text, length), &mut vec![0; words], lent_mut(out, room))
}

#[no_mangle]
unsafe extern "C" fn oracle_find(
    text: *const u8,
    length: usize,
    words: usize,
    pointer: *const u8,
    pointer_length: usize,
) -> Answer {
    reference::find(lent(text, length), &mut vec![0; words], lent(pointer, pointer_length)).0
}

#[no_mangle]
unsafe extern "C" fn oracle_merge(
    target: *const u8,
    target_length: usize,
    target_words: usize,
    patch: *const u8,
    patch_length: usize,
    patch_words: usize,
    out: *mut u8,
    room: usize,
) -> Answer {
    let texts = [lent(target, target_length), lent(patch, patch_length)];
    let tables = [&mut vec![0; target_words][..], &mut vec![0; patch_words][..]];
    reference::merge(texts, tables, lent_mut(out, room))
}
