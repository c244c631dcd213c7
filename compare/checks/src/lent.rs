//! Buffers that are lent to the calls. Each lies in pages of its own between two pages that nobody may
//! touch, flush against the one behind it or the one before it, so that an access one byte outside the
//! buffer on that side faults at once. Mappings are kept and used again.
//!
//! With `heap` each buffer is an allocation of exactly its size instead, for tools that watch those.

use model::dice::Dice;
use std::cell::RefCell;
use std::ffi::{c_int, c_void};
use std::ops::{Deref, DerefMut};

unsafe extern "C" {
    fn mmap(
        address: *mut c_void,
        length: usize,
        protection: c_int,
        flags: c_int,
        file: c_int,
        offset: i64,
    ) -> *mut c_void;
    fn mprotect(address: *mut c_void, length: usize, protection: c_int) -> c_int;
    fn munmap(address: *mut c_void, length: usize) -> c_int;
    fn getpagesize() -> c_int;
}

const PROT_NONE: c_int = 0;
const PROT_READ_WRITE: c_int = 3;
const MAP_PRIVATE_ANONYMOUS: c_int = 0x22;

fn page() -> usize {
    unsafe { getpagesize() as usize }
}

/// Some pages, and a page that nobody may touch on either side.
struct Pages {
    first: *mut u8,
    count: usize,
}

impl Pages {
    fn map(count: usize) -> Self {
        let (page, size) = (page(), count * page());
        unsafe {
            let all = mmap(
                std::ptr::null_mut(),
                size + 2 * page,
                PROT_NONE,
                MAP_PRIVATE_ANONYMOUS,
                -1,
                0,
            );
            assert!(all as isize != -1, "mmap");
            let first = all.cast::<u8>().add(page);
            assert_eq!(mprotect(first.cast(), size, PROT_READ_WRITE), 0);
            Self { first, count }
        }
    }
}

impl Drop for Pages {
    fn drop(&mut self) {
        let page = page();
        unsafe { munmap(self.first.sub(page).cast(), (self.count + 2) * page) };
    }
}

pub struct Lender {
    heap: bool,
    /// Mappings that no buffer lies in, by their number of pages.
    free: RefCell<Vec<Vec<Pages>>>,
}

impl Lender {
    pub fn new(heap: bool) -> Self {
        let free = RefCell::default();
        Self { heap, free }
    }

    fn take(&self, count: usize) -> Pages {
        let mut free = self.free.borrow_mut();
        if free.len() <= count {
            free.resize_with(count + 1, Vec::new);
        }
        free[count].pop().unwrap_or_else(|| Pages::map(count))
    }

    fn give_back(&self, pages: Pages) {
        self.free.borrow_mut()[pages.count].push(pages);
    }

    /// A buffer with this content. Dice choose the side that it is flush against.
    pub fn lend<T: Copy>(&self, dice: &mut Dice, content: &[T]) -> Lent<'_, T> {
        let (lender, len) = (self, content.len());
        if self.heap {
            let at = Box::into_raw(Box::<[T]>::from(content)).cast();
            let pages = None;
            return Lent {
                lender,
                pages,
                at,
                len,
            };
        }
        let size = size_of_val(content);
        let pages = self.take(size.div_ceil(page()).max(1));
        // An empty buffer at the start would point at a page that may be touched.
        let at_start = size > 0 && dice.flip();
        let skipped = if at_start {
            0
        } else {
            pages.count * page() - size
        };
        let at: *mut T = unsafe { pages.first.add(skipped) }.cast();
        unsafe { std::ptr::copy_nonoverlapping(content.as_ptr(), at, len) };
        let pages = Some(pages);
        Lent {
            lender,
            pages,
            at,
            len,
        }
    }
}

pub struct Lent<'a, T: Copy> {
    lender: &'a Lender,
    /// None for an allocation.
    pages: Option<Pages>,
    at: *mut T,
    len: usize,
}

impl<T: Copy> Deref for Lent<'_, T> {
    type Target = [T];
    fn deref(&self) -> &[T] {
        unsafe { std::slice::from_raw_parts(self.at, self.len) }
    }
}

impl<T: Copy> DerefMut for Lent<'_, T> {
    fn deref_mut(&mut self) -> &mut [T] {
        unsafe { std::slice::from_raw_parts_mut(self.at, self.len) }
    }
}

impl<T: Copy> Drop for Lent<'_, T> {
    fn drop(&mut self) {
        match self.pages.take() {
            Some(pages) => self.lender.give_back(pages),
            None => {
                let slice = std::ptr::slice_from_raw_parts_mut(self.at, self.len);
                drop(unsafe { Box::from_raw(slice) });
            }
        }
    }
}
