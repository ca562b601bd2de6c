//! The library under test, behind safe functions: a slice is lent as its pointer and its length.

use crate::answer::Answer;
use crate::part::Part;

extern "C" {
    fn nib_read(text: *const u8, text_len: usize, table: *mut u32, table_words: usize) -> Answer;
    fn nib_write(
        text: *const u8,
        text_len: usize,
        table: *mut u32,
        table_words: usize,
        out: *mut u8,
        out_len: usize,
    ) -> Answer;
    fn nib_find(
        text: *const u8,
        text_len: usize,
        table: *mut u32,
        table_words: usize,
        pointer: *const u8,
        pointer_len: usize,
    ) -> Answer;
    fn nib_part_of(
        text: *const u8,
        text_len: usize,
        table: *mut u32,
        table_words: usize,
        pointer: *const u8,
        pointer_len: usize,
    ) -> Part;
    fn nib_merge(
        target: *const u8,
        target_len: usize,
        target_table: *mut u32,
        target_words: usize,
        patch: *const u8,
        patch_len: usize,
        patch_table: *mut u32,
        patch_words: usize,
        out: *mut u8,
        out_len: usize,
    ) -> Answer;
}

pub fn read(text: &[u8], table: &mut [u32]) -> Answer {
    unsafe { nib_read(text.as_ptr(), text.len(), table.as_mut_ptr(), table.len()) }
}

/// The empty text and the empty table, both as null pointers.
pub fn read_nothing() -> Answer {
    unsafe { nib_read(std::ptr::null(), 0, std::ptr::null_mut(), 0) }
}

pub fn write(text: &[u8], table: &mut [u32], out: &mut [u8]) -> Answer {
    let (words, room) = (table.len(), out.len());
    unsafe { nib_write(text.as_ptr(), text.len(), table.as_mut_ptr(), words, out.as_mut_ptr(), room) }
}

/// The empty text, table and output, all as null pointers.
pub fn write_nothing() -> Answer {
    unsafe { nib_write(std::ptr::null(), 0, std::ptr::null_mut(), 0, std::ptr::null_mut(), 0) }
}

/// A text with an output of length 0 as a null pointer.
pub fn write_nowhere(text: &[u8], table: &mut [u32]) -> Answer {
    unsafe { nib_write(text.as_ptr(), text.len(), table.as_mut_ptr(), table.len(), std::ptr::null_mut(), 0) }
}

pub fn find(text: &[u8], table: &mut [u32], pointer: &[u8]) -> Answer {
    let words = table.len();
    unsafe { nib_find(text.as_ptr(), text.len(), table.as_mut_ptr(), words, pointer.as_ptr(), pointer.len()) }
}

pub fn part(text: &[u8], table: &mut [u32], pointer: &[u8]) -> Part {
    let words = table.len();
    unsafe { nib_part_of(text.as_ptr(), text.len(), table.as_mut_ptr(), words, pointer.as_ptr(), pointer.len()) }
}

/// Looks up the empty pointer, which is lent at this address.
pub fn find_whole(text: &[u8], table: &mut [u32], address: usize) -> (Answer, Part) {
    let (words, pointer) = (table.len(), address as *const u8);
    unsafe {
        let answer = nib_find(text.as_ptr(), text.len(), table.as_mut_ptr(), words, pointer, 0);
        (answer, nib_part_of(text.as_ptr(), text.len(), table.as_mut_ptr(), words, pointer, 0))
    }
}

/// Looks up this pointer in the empty text with an empty table, both as null pointers.
pub fn find_in_nothing(pointer: &[u8]) -> (Answer, Part) {
    let (text, table) = (std::ptr::null(), std::ptr::null_mut());
    unsafe {
        let answer = nib_find(text, 0, table, 0, pointer.as_ptr(), pointer.len());
        (answer, nib_part_of(text, 0, table, 0, pointer.as_ptr(), pointer.len()))
    }
}

/// Target and patch, each with its table.
pub fn merge([target, patch]: [&[u8]; 2], [target_table, patch_table]: [&mut [u32]; 2], out: &mut [u8]) -> Answer {
    unsafe {
        nib_merge(
            target.as_ptr(),
            target.len(),
            target_table.as_mut_ptr(),
            target_table.len(),
            patch.as_ptr(),
            patch.len(),
            patch_table.as_mut_ptr(),
            patch_table.len(),
            out.as_mut_ptr(),
            out.len(),
        )
    }
}

/// A target, and an empty patch, table and output, all as null pointers.
pub fn merge_nothing(target: &[u8], table: &mut [u32]) -> Answer {
    let (address, words) = (table.as_mut_ptr(), table.len());
    let (bytes, none, out) = (std::ptr::null(), std::ptr::null_mut(), std::ptr::null_mut());
    unsafe { nib_merge(target.as_ptr(), target.len(), address, words, bytes, 0, none, 0, out, 0) }
}

/// Target and patch with an output of length 0 as a null pointer.
pub fn merge_nowhere([target, patch]: [&[u8]; 2], [target_table, patch_table]: [&mut [u32]; 2]) -> Answer {
    let (address, words) = (target_table.as_mut_ptr(), target_table.len());
    let (of_patch, patch_words) = (patch_table.as_mut_ptr(), patch_table.len());
    let (text, length, out) = (patch.as_ptr(), patch.len(), std::ptr::null_mut());
    unsafe { nib_merge(target.as_ptr(), target.len(), address, words, text, length, of_patch, patch_words, out, 0) }
}
