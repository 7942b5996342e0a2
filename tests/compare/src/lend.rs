//! Where the buffers of a call lie. In a comparison they lie where the caller has them. To show
//! that the library touches nothing outside what it is lent, each is copied to pages of its own
//! between two that may not be touched, or, for valgrind, to a block of the heap of its own.

use std::cell::{Cell, RefCell};
use std::ffi::c_int;
use std::marker::PhantomData;
use std::mem::size_of_val;
use std::ptr::{copy_nonoverlapping, null_mut};
use std::slice::from_mut;

/// Where a buffer lies.
#[derive(Clone, Copy, PartialEq)]
pub enum Place {
    /// Where the caller has it.
    Own,
    /// Before a page that may not be touched.
    PageEnd,
    /// Behind a page that may not be touched.
    PageStart,
    /// In a block of the heap. What is lent to be written is not set, so that valgrind sees where
    /// it is read before.
    Heap,
}

/// The size of a page on x86-64, for which the library is built.
const PAGE: usize = 4096;

// Numbers of Linux on x86-64.
const PROT_NONE: c_int = 0;
const PROT_READ_WRITE: c_int = 3;
const MAP_PRIVATE_ANONYMOUS: c_int = 0x22;

extern "C" {
    fn mmap(at: *mut u8, len: usize, prot: c_int, flags: c_int, fd: c_int, from: i64) -> *mut u8;
    fn mprotect(at: *mut u8, len: usize, prot: c_int) -> c_int;
    fn munmap(at: *mut u8, len: usize) -> c_int;
    fn malloc(len: usize) -> *mut u8;
    fn free(at: *mut u8);
}

thread_local! {
    static PLACE: Cell<Place> = const { Cell::new(Place::Own) };
    /// Pages that no buffer has now.
    static FREE: RefCell<Vec<Pages>> = const { RefCell::new(Vec::new()) };
}

/// Sets where the buffers of the next calls lie.
pub fn set_place(place: Place) {
    PLACE.set(place);
}

/// Some pages with one on each side that may not be touched.
struct Pages {
    start: *mut u8,
    len: usize,
}

impl Pages {
    /// Pages for at least `len` bytes.
    fn new(len: usize) -> Pages {
        let len = len.max(1).next_multiple_of(PAGE);
        let all = len + 2 * PAGE;
        // Safe: new pages, of which those in the middle are opened.
        unsafe {
            let start = mmap(null_mut(), all, PROT_NONE, MAP_PRIVATE_ANONYMOUS, -1, 0);
            assert!(start as isize != -1, "no memory for {all} bytes");
            let start = start.add(PAGE);
            assert_eq!(mprotect(start, len, PROT_READ_WRITE), 0, "mprotect of {len} bytes");
            Pages { start, len }
        }
    }

    /// Pages for `len` bytes: free ones, or new ones in their stead where they are too few.
    fn take(len: usize) -> Pages {
        let free = FREE.with_borrow_mut(|free| free.pop());
        free.filter(|pages| pages.len >= len).unwrap_or_else(|| Pages::new(len))
    }
}

impl Drop for Pages {
    fn drop(&mut self) {
        // Safe: the pages are those that `new` got, and no buffer has them.
        unsafe { munmap(self.start.sub(PAGE), self.len + 2 * PAGE) };
    }
}

/// The bytes of a buffer, in a place of their own where the place is not the caller's.
struct Bytes {
    at: *mut u8,
    place: Place,
    pages: Option<Pages>,
}

impl Bytes {
    /// `len` bytes; `own` is where the caller has them.
    fn new(own: *mut u8, len: usize) -> Bytes {
        let place = PLACE.get();
        let (at, pages) = match place {
            Place::Own => (own, None),
            // Safe: any length may be asked for.
            Place::Heap => (unsafe { malloc(len) }, None),
            Place::PageEnd | Place::PageStart => {
                let pages = Pages::take(len);
                let before = if place == Place::PageEnd { pages.len - len } else { 0 };
                // Safe: the pages have at least `len` bytes.
                (unsafe { pages.start.add(before) }, Some(pages))
            }
        };
        assert!(!at.is_null(), "no memory for {len} bytes");
        Bytes { at, place, pages }
    }
}

impl Drop for Bytes {
    fn drop(&mut self) {
        if self.place == Place::Heap {
            // Safe: the block is that of malloc.
            unsafe { free(self.at) };
        }
        if let Some(pages) = self.pages.take() {
            FREE.with_borrow_mut(|free| free.push(pages));
        }
    }
}

/// A slice that is lent to be read.
pub struct Lent<'a, T> {
    slice: &'a [T],
    bytes: Bytes,
}

impl<'a, T: Copy> Lent<'a, T> {
    pub fn new(slice: &'a [T]) -> Lent<'a, T> {
        let (own, len) = (slice.as_ptr() as *mut u8, size_of_val(slice));
        let bytes = Bytes::new(own, len);
        if bytes.place != Place::Own {
            // Safe: the bytes are new and as many.
            unsafe { copy_nonoverlapping(own, bytes.at, len) };
        }
        Lent { slice, bytes }
    }

    pub fn ptr(&self) -> *const T {
        self.bytes.at as *const T
    }

    pub fn len(&self) -> usize {
        self.slice.len()
    }
}

/// A slice that is lent to be written.
pub struct Room<'a, T> {
    own: *mut T,
    len: usize,
    bytes: Bytes,
    lent: PhantomData<&'a mut [T]>,
}

impl<'a, T: Copy> Room<'a, T> {
    pub fn new(slice: &'a mut [T]) -> Room<'a, T> {
        let (own, len) = (slice.as_mut_ptr(), slice.len());
        let bytes = Bytes::new(own as *mut u8, size_of_val(slice));
        if bytes.pages.is_some() {
            // Safe: the bytes are new and as many.
            unsafe { copy_nonoverlapping(own, bytes.at as *mut T, len) };
        }
        Room { own, len, bytes, lent: PhantomData }
    }

    pub fn one(value: &'a mut T) -> Room<'a, T> {
        Room::new(from_mut(value))
    }

    pub fn ptr(&self) -> *mut T {
        self.bytes.at as *mut T
    }

    pub fn len(&self) -> usize {
        self.len
    }

    /// Gives the caller what the library wrote, which says that it is `written` values. From pages
    /// all are taken, so that what else it wrote is seen. From the heap the others are not, since
    /// they are not set.
    pub fn back(self, written: usize) {
        let count = match self.bytes.place {
            Place::Own => 0,
            Place::PageEnd | Place::PageStart => self.len,
            Place::Heap => written.min(self.len),
        };
        // Safe: both have so many values, and the caller's are lent to be written.
        unsafe { copy_nonoverlapping(self.ptr(), self.own, count) };
    }
}
