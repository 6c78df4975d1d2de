//! Memory that ends where the next page may not be touched, so that one byte read or written too far ends the run.

use reference::compare::memory::Element;
use std::mem::size_of;
use std::os::raw::{c_int, c_void};

extern "C" {
    fn mmap(at: *mut c_void, length: usize, protection: c_int, flags: c_int, file: c_int, offset: i64) -> *mut c_void;
    fn mprotect(at: *mut c_void, length: usize, protection: c_int) -> c_int;
}

const PAGE: usize = 4_096;
const NOTHING: c_int = 0;
const READ: c_int = 1;
const READ_AND_WRITE: c_int = 3;
const PRIVATE_WITHOUT_FILE: c_int = 0x22;

/// Pages that can be used: so many bytes hold every block file and every slice that is lent.
const OPEN: usize = 4 * PAGE;

/// The open pages, and one behind them that may not be touched.
pub struct Pages {
    start: *mut u8,
}

impl Pages {
    pub fn reserve() -> Pages {
        // SAFETY: a fresh mapping of this process; its last page is closed.
        unsafe {
            let start: *mut u8 =
                mmap(std::ptr::null_mut(), OPEN + PAGE, READ_AND_WRITE, PRIVATE_WITHOUT_FILE, -1, 0).cast();
            assert!(start as isize != -1, "no memory");
            assert_eq!(mprotect(start.add(OPEN).cast(), PAGE, NOTHING), 0);
            Pages { start }
        }
    }

    fn protect(&mut self, protection: c_int) {
        // SAFETY: the open pages of the mapping.
        assert_eq!(unsafe { mprotect(self.start.cast(), OPEN, protection) }, 0);
    }

    /// The elements, moved to the end of the pages, which are open for writing.
    fn moved<T: Element>(&mut self, elements: &[T]) -> &mut [T] {
        let bytes = elements.len() * size_of::<T>();
        assert!(bytes <= OPEN);
        self.protect(READ_AND_WRITE);
        // SAFETY: within the open pages, borrowed as long as the slice lives. Any bytes are elements, and a page's end is a
        // multiple of their size.
        let moved = unsafe { std::slice::from_raw_parts_mut(self.start.add(OPEN - bytes).cast::<T>(), elements.len()) };
        moved.copy_from_slice(elements);
        moved
    }

    /// The same elements in pages that may be read only.
    pub fn show<T: Element>(&mut self, elements: &[T]) -> &[T] {
        let (shown, count) = (self.moved(elements).as_ptr(), elements.len());
        self.protect(READ);
        // SAFETY: as above.
        unsafe { std::slice::from_raw_parts(shown, count) }
    }

    /// A call on the elements in pages; afterwards they are as it left them there.
    pub fn lend<T: Element, A>(&mut self, elements: &mut [T], call: impl FnOnce(&mut [T]) -> A) -> A {
        let moved = self.moved(elements);
        let answer = call(moved);
        elements.copy_from_slice(moved);
        answer
    }
}
