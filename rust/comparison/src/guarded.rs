//! Memory between two pages that must not be touched: whoever reads or writes past either end of it ends the process. For Linux.

use std::mem::{align_of, size_of_val};
use std::os::raw::{c_int, c_void};
use std::slice;

const PAGE: usize = 4096;
const NO_ACCESS: c_int = 0;
const READ_AND_WRITE: c_int = 1 | 2;
const PRIVATE_AND_ANONYMOUS: c_int = 0x02 | 0x20;

extern "C" {
    fn mmap(
        address: *mut c_void,
        length: usize,
        access: c_int,
        flags: c_int,
        file: c_int,
        offset: i64,
    ) -> *mut c_void;
    fn mprotect(address: *mut c_void, length: usize, access: c_int) -> c_int;
    fn munmap(address: *mut c_void, length: usize) -> c_int;
}

/// Where something stands: just behind the page before it, or just before the page behind it.
#[derive(Clone, Copy, Debug)]
pub enum End {
    Front,
    Back,
}

/// Pages to stand in, between the two.
pub struct Guarded {
    first: *mut u8,
    length: usize,
}

impl Guarded {
    /// At least so many bytes.
    pub fn new(room: usize) -> Guarded {
        let length = (room / PAGE + 1) * PAGE;
        // SAFETY: new pages at no given address, none of which is used yet; then access to all but the first and the last.
        unsafe {
            let whole = length + 2 * PAGE;
            let pages = mmap(
                std::ptr::null_mut(),
                whole,
                NO_ACCESS,
                PRIVATE_AND_ANONYMOUS,
                -1,
                0,
            );
            assert!(pages as isize != -1, "no pages");
            let first = pages.cast::<u8>().add(PAGE);
            assert_eq!(mprotect(first.cast(), length, READ_AND_WRITE), 0);
            Guarded { first, length }
        }
    }

    /// A list of these elements at one end.
    pub fn list<T: Copy>(&mut self, end: End, elements: &[T]) -> &mut [T] {
        let bytes = size_of_val(elements);
        assert!(bytes <= self.length, "no room");
        let at = match end {
            End::Front => 0,
            End::Back => self.length - bytes,
        };
        // SAFETY: these bytes are of this memory, which is lent as long as the list; the copy makes elements of them.
        unsafe {
            let list = self.first.add(at).cast::<T>();
            assert_eq!(list as usize % align_of::<T>(), 0, "not aligned");
            list.copy_from_nonoverlapping(elements.as_ptr(), elements.len());
            slice::from_raw_parts_mut(list, elements.len())
        }
    }
}

impl Drop for Guarded {
    fn drop(&mut self) {
        // SAFETY: what `new` took, both pages beside it included; nothing borrows it any more.
        unsafe { munmap(self.first.sub(PAGE).cast(), self.length + 2 * PAGE) };
    }
}
