//! Memory with an inaccessible page on either side, so that touching a byte outside of a slice ends the program.

use std::ffi::c_void;

const PAGE: usize = 4096;
const NO_ACCESS: i32 = 0;
const READ_ONLY: i32 = 1;
const READ_WRITE: i32 = 3;
const PRIVATE_ANONYMOUS: i32 = 0x22;

extern "C" {
    fn mmap(at: *mut c_void, length: usize, access: i32, kind: i32, file: i32, offset: i64) -> *mut c_void;
    fn mprotect(at: *mut c_void, length: usize, access: i32) -> i32;
}

/// Where a slice stands in the memory: at the fence before it or at the one behind it.
#[derive(Clone, Copy)]
pub enum Side {
    Before,
    Behind,
}

/// Fenced memory, kept until the program ends.
pub struct Fenced {
    start: *mut u8,
    length: usize,
}

impl Fenced {
    pub fn new(pages: usize) -> Fenced {
        let length = pages * PAGE;
        unsafe {
            let all = mmap(std::ptr::null_mut(), length + 2 * PAGE, NO_ACCESS, PRIVATE_ANONYMOUS, -1, 0);
            assert!(all as isize != -1, "no memory for fences");
            let fenced = Fenced { start: all.cast::<u8>().add(PAGE), length };
            fenced.protect(READ_WRITE);
            fenced
        }
    }

    fn protect(&self, access: i32) {
        let result = unsafe { mprotect(self.start.cast(), self.length, access) };
        assert!(result == 0, "no fences here");
    }

    fn place(&self, length: usize, side: Side) -> *mut u8 {
        assert!(length <= self.length);
        match side {
            Side::Before => self.start,
            Side::Behind => unsafe { self.start.add(self.length - length) },
        }
    }

    /// The bytes at a fence, in memory that can't be written from now on.
    pub fn bytes(&mut self, bytes: &[u8], side: Side) -> &[u8] {
        let place = self.place(bytes.len(), side);
        self.protect(READ_WRITE);
        unsafe { place.copy_from(bytes.as_ptr(), bytes.len()) };
        self.protect(READ_ONLY);
        unsafe { std::slice::from_raw_parts(place, bytes.len()) }
    }

    /// Words or bytes at a fence, to be written.
    pub fn lent<T: Copy>(&mut self, items: &[T], side: Side) -> &mut [T] {
        let place = self.place(std::mem::size_of_val(items), side).cast::<T>();
        unsafe {
            place.copy_from(items.as_ptr(), items.len());
            std::slice::from_raw_parts_mut(place, items.len())
        }
    }
}
