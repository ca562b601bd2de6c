//! The library's C entries behind safe functions: the one file with unsafe code.
//!
//! Each call is sound for the same reason. The library asks that each address lead to as many elements as the length
//! beside it says, that a table be aligned as `u32` is, and that what it writes to overlap nothing else that is lent.
//! Address and length of one slice keep the first two, and a `&mut` slice is never shared, which keeps the third. The
//! library never reads or writes outside what it is lent, and writes only to tables and outputs.

/// The answer to a call, laid out as `nib_answer` in `nibrocate.h`.
#[repr(C)]
pub struct Answer {
    pub number: u32,
    pub input: u32,
    pub place: u32,
    pub count: u32,
}

extern "C" {
    fn nib_read(text: *const u8, text_len: usize, table: *mut u32, words: usize) -> Answer;
    fn nib_write(
        text: *const u8,
        text_len: usize,
        table: *mut u32,
        words: usize,
        out: *mut u8,
        out_len: usize,
    ) -> Answer;
    fn nib_find(
        text: *const u8,
        text_len: usize,
        table: *mut u32,
        words: usize,
        pointer: *const u8,
        pointer_len: usize,
    ) -> Answer;
    fn nib_merge(
        target: *const u8,
        target_len: usize,
        target_table: *mut u32,
        target_words: usize,
        patch: *const u8,
        patch_len: usize,
        patch_table: *mut u32,
        patch_words: usize,
        out: *mut u8,
        out_len: usize,
    ) -> Answer;
}

/// `nib_read`.
pub fn read(text: &[u8], table: &mut [u32]) -> Answer {
    // Sound: one shared slice and one `&mut` slice, each with its own length.
    unsafe { nib_read(text.as_ptr(), text.len(), table.as_mut_ptr(), table.len()) }
}

/// `nib_write`.
pub fn write(text: &[u8], table: &mut [u32], out: &mut [u8]) -> Answer {
    let (words, room) = (table.len(), out.len());
    // Sound: as in `read`, and the output is a second `&mut` slice.
    unsafe { nib_write(text.as_ptr(), text.len(), table.as_mut_ptr(), words, out.as_mut_ptr(), room) }
}

/// `nib_find`.
pub fn find(text: &[u8], table: &mut [u32], pointer: &[u8]) -> Answer {
    let words = table.len();
    // Sound: as in `read`; the pointer is only read, so it may be a part of the text.
    unsafe { nib_find(text.as_ptr(), text.len(), table.as_mut_ptr(), words, pointer.as_ptr(), pointer.len()) }
}

/// `nib_merge`. Each text comes with its table.
pub fn merge(target: (&[u8], &mut [u32]), patch: (&[u8], &mut [u32]), out: &mut [u8]) -> Answer {
    // Sound: both texts are only read, so they may overlap; the tables and the output are three `&mut` slices.
    unsafe {
        nib_merge(
            target.0.as_ptr(),
            target.0.len(),
            target.1.as_mut_ptr(),
            target.1.len(),
            patch.0.as_ptr(),
            patch.0.len(),
            patch.1.as_mut_ptr(),
            patch.1.len(),
            out.as_mut_ptr(),
            out.len(),
        )
    }
}
