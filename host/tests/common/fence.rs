//! Bytes with pages on both sides that nobody may touch: a call that reads or
//! writes past them ends the test.

use std::ffi::c_void;
use std::ptr;

const PAGE: usize = 4096;
/// As Linux has them.
const PROT_NONE: i32 = 0;
const PROT_READ_WRITE: i32 = 3;
const MAP_PRIVATE_ANONYMOUS: i32 = 0x22;

extern "C" {
    fn mmap(
        at: *mut c_void,
        length: usize,
        prot: i32,
        flags: i32,
        file: i32,
        from: i64,
    ) -> *mut c_void;
    fn mprotect(at: *mut c_void, length: usize, prot: i32) -> i32;
    fn munmap(at: *mut c_void, length: usize) -> i32;
}

/// Pages between two fences.
pub struct Fenced {
    whole: *mut u8,
    pages: usize,
}

/// Which fence the bytes lie against.
#[derive(Clone, Copy)]
pub enum Side {
    Before,
    After,
}

impl Fenced {
    /// Room for this many bytes.
    pub fn new(bytes: usize) -> Fenced {
        let pages = bytes.div_ceil(PAGE);
        let length = (pages + 2) * PAGE;
        // SAFETY: a new mapping of its own; its inner pages are made usable.
        unsafe {
            let whole = mmap(
                ptr::null_mut(),
                length,
                PROT_NONE,
                MAP_PRIVATE_ANONYMOUS,
                -1,
                0,
            );
            assert!(whole as isize != -1, "no memory");
            let inner = whole.byte_add(PAGE);
            assert_eq!(mprotect(inner, pages * PAGE, PROT_READ_WRITE), 0);
            Fenced {
                whole: whole.cast(),
                pages,
            }
        }
    }

    /// As many bytes, right at one of the fences.
    pub fn bytes(&mut self, length: usize, side: Side) -> &mut [u8] {
        let room = self.pages * PAGE;
        assert!(length <= room);
        let start = match side {
            Side::Before => PAGE,
            Side::After => PAGE + room - length,
        };
        // SAFETY: these bytes lie in the usable pages, and are borrowed with
        // them.
        unsafe { std::slice::from_raw_parts_mut(self.whole.add(start), length) }
    }
}

impl Drop for Fenced {
    fn drop(&mut self) {
        // SAFETY: the mapping is this one's own, and nothing borrows it.
        unsafe {
            munmap(self.whole.cast(), (self.pages + 2) * PAGE);
        }
    }
}
