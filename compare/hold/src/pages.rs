//! Memory between two pages that nobody may read or write.

use std::ffi::{c_int, c_long, c_void};
use std::{ptr, slice};

/// A multiple of every size that Linux has for a page.
const PAGE: usize = 65_536;

/// Linux's numbers, the same on every machine that the archive is tried on.
const NO_ACCESS: c_int = 0;
const READ_AND_WRITE: c_int = 3;
const PRIVATE_ANONYMOUS_NO_RESERVE: c_int = 0x4022;

unsafe extern "C" {
    fn mmap(
        address: *mut c_void,
        length: usize,
        protection: c_int,
        flags: c_int,
        file: c_int,
        offset: c_long,
    ) -> *mut c_void;
    fn mprotect(address: *mut c_void, length: usize, protection: c_int) -> c_int;
    fn munmap(address: *mut c_void, length: usize) -> c_int;
}

/// Bytes of zero at first, as many as whole pages have. Only those that are touched
/// need memory.
pub struct Pages {
    start: *mut u8,
    length: usize,
}

impl Pages {
    /// At least so many bytes.
    ///
    /// # Panics
    /// If the system does not have that much memory.
    pub fn new(bytes: usize) -> Self {
        let length = bytes.next_multiple_of(PAGE);
        // SAFETY: new memory, which is nobody else's; its middle becomes usable.
        unsafe {
            let whole = mmap(
                ptr::null_mut(),
                length + 2 * PAGE,
                NO_ACCESS,
                PRIVATE_ANONYMOUS_NO_RESERVE,
                -1,
                0,
            );
            assert_ne!(whole.addr(), usize::MAX, "no memory for {length} bytes");
            let start = whole.byte_add(PAGE);
            let refused = mprotect(start, length, READ_AND_WRITE);
            assert_eq!(refused, 0, "no memory for {length} bytes");
            Pages {
                start: start.cast(),
                length,
            }
        }
    }

    pub fn length(&self) -> usize {
        self.length
    }

    pub fn start(&mut self) -> *mut u8 {
        self.start
    }

    pub fn bytes(&self) -> &[u8] {
        // SAFETY: the pages are this value's own and can be read.
        unsafe { slice::from_raw_parts(self.start, self.length) }
    }

    pub fn bytes_mut(&mut self) -> &mut [u8] {
        // SAFETY: the pages are this value's own and can be written.
        unsafe { slice::from_raw_parts_mut(self.start, self.length) }
    }
}

impl Drop for Pages {
    fn drop(&mut self) {
        // SAFETY: what `new` mapped, and nobody uses it any more.
        unsafe {
            munmap(
                self.start.byte_sub(PAGE).cast(),
                self.length.wrapping_add(2 * PAGE),
            );
        }
    }
}
