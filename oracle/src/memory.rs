//! Memory that is lent to a call: on the heap, or in pages of its own between two that nobody may touch. There the
//! system stops a call that goes past what it is lent, or that writes what it may only read.

use std::ffi::{c_int, c_void};
use std::ops::{Deref, DerefMut};

#[rustfmt::skip]
unsafe extern "C" {
    fn mmap(at: *mut c_void, length: usize, access: c_int, flags: c_int, file: c_int, offset: i64) -> *mut c_void;
    fn mprotect(at: *mut c_void, length: usize, access: c_int) -> c_int;
    fn munmap(at: *mut c_void, length: usize) -> c_int;
}

/// The system's numbers, for x86-64 Linux.
const PAGE: usize = 4096;
const NO_ACCESS: c_int = 0;
const READ: c_int = 1;
const WRITE: c_int = 2;
const PRIVATE_ZEROS_UNRESERVED: c_int = 0x2 | 0x20 | 0x4000;

/// Where memory lies that is lent.
#[derive(Clone, Copy, PartialEq, Eq)]
pub enum Placement {
    Heap,
    /// The page behind its last element cannot be touched.
    GuardBehind,
    /// The page before its first element cannot be touched.
    GuardBefore,
}

impl Placement {
    pub fn name(self) -> &'static str {
        match self {
            Placement::Heap => "on the heap",
            Placement::GuardBehind => "guard pages behind",
            Placement::GuardBefore => "guard pages before",
        }
    }
}

/// Elements in whole pages, at their end or at their beginning, and a guard page on each side.
pub struct Pages<T> {
    base: *mut u8,
    size: usize,
    start: *mut T,
    length: usize,
}

impl<T: Copy> Pages<T> {
    /// Zeros that can only be read, of which none takes memory. None where the system refuses so many.
    pub fn zeros(placement: Placement, length: usize) -> Option<Self> {
        Self::with_access(placement, length, READ)
    }

    /// Zeros of which a page takes memory once it is written.
    pub fn writable_zeros(placement: Placement, length: usize) -> Option<Self> {
        Self::with_access(placement, length, READ | WRITE)
    }

    fn copied(placement: Placement, values: &[T]) -> Self {
        let mut pages = Self::writable_zeros(placement, values.len()).expect("there are pages for a small input");
        pages.copy_from_slice(values);
        pages
    }

    fn with_access(placement: Placement, length: usize, access: c_int) -> Option<Self> {
        let bytes = length * size_of::<T>();
        let size = bytes.next_multiple_of(PAGE).max(PAGE);
        let none = std::ptr::null_mut();
        let base = unsafe { mmap(none, size + 2 * PAGE, NO_ACCESS, PRIVATE_ZEROS_UNRESERVED, -1, 0) } as *mut u8;
        if base as isize == -1 {
            return None;
        }
        let gap = if placement == Placement::GuardBehind { size - bytes } else { 0 };
        let pages = Pages { base, size, start: unsafe { base.add(PAGE + gap) } as *mut T, length };
        pages.allowed(access).then_some(pages)
    }

    fn allowed(&self, access: c_int) -> bool {
        unsafe { mprotect(self.base.add(PAGE) as *mut c_void, self.size, access) == 0 }
    }

    fn allow(&self, access: c_int) {
        assert!(self.allowed(access), "the access of pages can be changed");
    }
}

impl<T> Drop for Pages<T> {
    fn drop(&mut self) {
        unsafe { munmap(self.base as *mut c_void, self.size + 2 * PAGE) };
    }
}

impl<T> Deref for Pages<T> {
    type Target = [T];

    fn deref(&self) -> &[T] {
        unsafe { std::slice::from_raw_parts(self.start, self.length) }
    }
}

impl<T> DerefMut for Pages<T> {
    fn deref_mut(&mut self) -> &mut [T] {
        unsafe { std::slice::from_raw_parts_mut(self.start, self.length) }
    }
}

/// What a call may write.
pub enum Places<T> {
    Heap(Vec<T>),
    Pages(Pages<T>),
}

impl<T: Copy> Places<T> {
    pub fn of(placement: Placement, values: Vec<T>) -> Self {
        match placement {
            Placement::Heap => Places::Heap(values),
            _ => Places::Pages(Pages::copied(placement, &values)),
        }
    }

    /// From now on the system stops a call that writes here. On the heap only a look afterwards shows it.
    pub fn forbid_writing(&self) {
        if let Places::Pages(pages) = self {
            pages.allow(READ);
        }
    }
}

impl<T> Deref for Places<T> {
    type Target = [T];

    fn deref(&self) -> &[T] {
        match self {
            Places::Heap(values) => values,
            Places::Pages(pages) => pages,
        }
    }
}

impl<T> DerefMut for Places<T> {
    fn deref_mut(&mut self) -> &mut [T] {
        match self {
            Places::Heap(values) => values,
            Places::Pages(pages) => pages,
        }
    }
}

/// What a call may only read. On the heap it is the caller's own.
pub enum Lent<'a, T> {
    Own(&'a [T]),
    Pages(Pages<T>),
}

/// Longer inputs stand in pages already and are not copied.
const COPIED: usize = 1 << 20;

pub fn lent<T: Copy>(placement: Placement, values: &[T]) -> Lent<'_, T> {
    if placement == Placement::Heap || values.len() > COPIED {
        return Lent::Own(values);
    }
    let pages = Pages::copied(placement, values);
    pages.allow(READ);
    Lent::Pages(pages)
}

impl<T> Deref for Lent<'_, T> {
    type Target = [T];

    fn deref(&self) -> &[T] {
        match self {
            Lent::Own(values) => values,
            Lent::Pages(pages) => pages,
        }
    }
}
