//! Pages to lend, with memory that has no access before and behind them.
#![allow(unsafe_code)]

use std::ffi::{c_int, c_long, c_void};
use std::{ptr, slice};

extern "C" {
    fn mmap(
        at: *mut c_void,
        len: usize,
        access: c_int,
        flags: c_int,
        file: c_int,
        offset: c_long,
    ) -> *mut c_void;
    fn mprotect(at: *mut c_void, len: usize, access: c_int) -> c_int;
    fn munmap(at: *mut c_void, len: usize) -> c_int;
    fn sysconf(name: c_int) -> c_long;
}

const SC_PAGESIZE: c_int = 30;
const NO_ACCESS: c_int = 0;
const READ: c_int = 1;
const READ_AND_WRITE: c_int = 3;
const PRIVATE_AND_ANONYMOUS: c_int = 0x22;

/// The bytes without access on either side; a whole number of pages.
pub const GAP: usize = 1 << 20;

pub struct Pages {
    start: *mut u8,
    len: usize,
    access: c_int,
}

impl Pages {
    /// Pages for at least so many bytes.
    pub fn new(bytes: usize) -> Pages {
        let page = unsafe { sysconf(SC_PAGESIZE) } as usize;
        let len = bytes.div_ceil(page) * page;
        let whole = len + 2 * GAP;
        let start = unsafe {
            mmap(
                ptr::null_mut(),
                whole,
                NO_ACCESS,
                PRIVATE_AND_ANONYMOUS,
                -1,
                0,
            )
        };
        assert!(start as isize != -1, "no memory to lend");
        let mut pages = Pages {
            start: start.cast::<u8>().wrapping_add(GAP),
            len,
            access: NO_ACCESS,
        };
        pages.allow(READ_AND_WRITE);
        pages
    }

    pub fn bytes(&self) -> &[u8] {
        unsafe { slice::from_raw_parts(self.start, self.len) }
    }

    pub fn bytes_mut(&mut self) -> &mut [u8] {
        self.allow(READ_AND_WRITE);
        unsafe { slice::from_raw_parts_mut(self.start, self.len) }
    }

    /// Nobody may write until `bytes_mut` is asked for.
    pub fn lock(&mut self) {
        self.allow(READ);
    }

    fn allow(&mut self, access: c_int) {
        if self.access != access {
            let status = unsafe { mprotect(self.start.cast(), self.len, access) };
            assert!(
                status == 0,
                "the access of memory to lend cannot be changed"
            );
            self.access = access;
        }
    }
}

impl Drop for Pages {
    fn drop(&mut self) {
        let whole = self.len + 2 * GAP;
        unsafe { munmap(self.start.wrapping_sub(GAP).cast(), whole) };
    }
}
