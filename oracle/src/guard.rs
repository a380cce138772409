//! How a slice is handed to the proved code: as it lies, or, in a guarded run, in pages of its own between two that may not be touched,
//! so that a byte read or written outside of it is a crash. Half of the slices end where their pages end, half begin where they begin.

use crate::meshes::Rng;
use std::ffi::{c_int, c_void};
use std::mem::{align_of, size_of_val};
use std::ptr::null_mut;
use std::sync::atomic::{AtomicBool, AtomicU64, AtomicUsize, Ordering::Relaxed};

static GUARDED: AtomicBool = AtomicBool::new(false);

/// From now on every slice is handed over in pages of its own.
pub fn guard_all() {
    GUARDED.store(true, Relaxed);
}

extern "C" {
    fn mmap(at: *mut c_void, bytes: usize, rights: c_int, flags: c_int, file: c_int, offset: i64) -> *mut c_void;
    fn mprotect(at: *mut c_void, bytes: usize, rights: c_int) -> c_int;
    fn munmap(at: *mut c_void, bytes: usize) -> c_int;
}

// As Linux on x86-64 has them.
const PAGE: usize = 4096;
const NONE: c_int = 0;
const READ: c_int = 1;
const READ_WRITE: c_int = 3;
const PRIVATE_ANONYMOUS: c_int = 0x22;

fn done(is: bool) {
    if !is {
        crate::fail("the system lends no more pages");
    }
}

/// Pages of zeros.
pub struct Zeros {
    first: *mut u8,
    bytes: usize,
}

pub fn pages_of_zeros(bytes: usize) -> Zeros {
    let first: *mut u8 = unsafe { mmap(null_mut(), bytes, READ_WRITE, PRIVATE_ANONYMOUS, -1, 0) }.cast();
    done(first as isize != -1);
    Zeros { first, bytes }
}

impl Zeros {
    pub fn first(&self) -> *mut u8 {
        self.first
    }

    /// How many bytes there are from the first that is no longer zero to the end.
    pub fn touched(&self) -> usize {
        let bytes = unsafe { std::slice::from_raw_parts(self.first, self.bytes) };
        self.bytes - bytes.iter().position(|&byte| byte != 0).unwrap_or(self.bytes)
    }
}

impl Drop for Zeros {
    fn drop(&mut self) {
        done(unsafe { munmap(self.first.cast(), self.bytes) } == 0);
    }
}

/// The next of a fixed sequence of choices.
fn choice(bound: u64) -> u64 {
    static TURN: AtomicU64 = AtomicU64::new(0);
    Rng(TURN.fetch_add(1, Relaxed)).below(bound)
}

/// Pages with a copy of a slice, and a page without rights on either side.
struct Pages {
    first: *mut u8,
    bytes: usize,
    slice: *mut u8,
}

impl Pages {
    fn holding<T: Copy>(slice: &[T], rights: c_int) -> Pages {
        let length = size_of_val(slice);
        let inner = length.next_multiple_of(PAGE);
        let bytes = inner + 2 * PAGE;
        unsafe {
            let first: *mut u8 = mmap(null_mut(), bytes, NONE, PRIVATE_ANONYMOUS, -1, 0).cast();
            done(first as isize != -1);
            let inside = first.add(PAGE);
            done(mprotect(inside.cast(), inner, READ_WRITE) == 0);
            let start = if choice(2) == 0 { inside } else { inside.add(inner - length) };
            start.copy_from(slice.as_ptr().cast(), length);
            done(mprotect(inside.cast(), inner, rights) == 0);
            Pages { first, bytes, slice: start }
        }
    }
}

impl Drop for Pages {
    fn drop(&mut self) {
        done(unsafe { munmap(self.first.cast(), self.bytes) } == 0);
    }
}

/// So many bytes were handed over or lent.
static BYTES: AtomicUsize = AtomicUsize::new(0);

/// How many bytes the calls since the last time were handed and lent.
pub fn bytes_since() -> usize {
    BYTES.swap(0, Relaxed)
}

fn pages<T: Copy>(slice: &[T], rights: c_int) -> Option<Pages> {
    BYTES.store(BYTES.load(Relaxed).wrapping_add(size_of_val(slice)), Relaxed);
    (GUARDED.load(Relaxed) && !slice.is_empty()).then(|| Pages::holding(slice, rights))
}

/// Where a slice of no places lies is no matter: now null, now an address that is never mapped.
fn nowhere<T>() -> *mut T {
    (choice(2) as usize * align_of::<T>()) as *mut T
}

/// A slice to read.
pub struct Handed<'a, T> {
    home: &'a [T],
    pages: Option<Pages>,
}

impl<'a, T: Copy> Handed<'a, T> {
    pub fn new(home: &'a [T]) -> Handed<'a, T> {
        Handed { pages: pages(home, READ), home }
    }

    pub fn at(&self) -> *const T {
        match &self.pages {
            Some(pages) => pages.slice.cast(),
            None if self.home.is_empty() => nowhere(),
            None => self.home.as_ptr(),
        }
    }

    pub fn len(&self) -> usize {
        self.home.len()
    }
}

/// A slice that is lent: what its pages hold comes home after the call.
pub struct Borrowed<'a, T: Copy> {
    home: &'a mut [T],
    pages: Option<Pages>,
}

impl<'a, T: Copy> Borrowed<'a, T> {
    pub fn new(home: &'a mut [T]) -> Borrowed<'a, T> {
        Borrowed { pages: pages(home, READ_WRITE), home }
    }

    pub fn at(&mut self) -> *mut T {
        match &self.pages {
            Some(pages) => pages.slice.cast(),
            None if self.home.is_empty() => nowhere(),
            None => self.home.as_mut_ptr(),
        }
    }

    pub fn len(&self) -> usize {
        self.home.len()
    }
}

impl<T: Copy> Drop for Borrowed<'_, T> {
    fn drop(&mut self) {
        if let Some(pages) = &self.pages {
            unsafe { self.home.as_mut_ptr().copy_from(pages.slice.cast(), self.home.len()) }
        }
    }
}
