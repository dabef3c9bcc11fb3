//! Slices that end where the memory ends: what is read or written behind them stops the program.
use std::ffi::{c_int, c_void};
use std::ops::{Deref, DerefMut};
use std::{ptr, slice};

// Of x86-64 Linux.
const PAGE: usize = 4096;
const NO_ACCESS: c_int = 0;
const READ_WRITE: c_int = 1 | 2;
const PRIVATE_ANONYMOUS: c_int = 2 | 32;

unsafe extern "C" {
    fn mmap(address: *mut c_void, length: usize, protection: c_int, flags: c_int, file: c_int, offset: i64) -> *mut c_void;
    fn mprotect(address: *mut c_void, length: usize, protection: c_int) -> c_int;
    fn munmap(address: *mut c_void, length: usize) -> c_int;
}

/// Numbers or bytes, behind the last of which a page lies that can be neither read nor written; before the first page lies another.
pub struct Guarded<T: Copy> {
    base: *mut c_void,
    mapped: usize,
    first: *mut T,
    length: usize,
}

impl<T: Copy> Guarded<T> {
    /// So many times `value`.
    pub fn filled(value: T, length: usize) -> Guarded<T> {
        let size = length * size_of::<T>();
        let inner = size.div_ceil(PAGE) * PAGE;
        let mapped = inner + 2 * PAGE;
        // Sound: the memory is new; the slice lies within its inner pages, and its start is a multiple of the alignment, since the page and the size are.
        unsafe {
            let base = mmap(ptr::null_mut(), mapped, NO_ACCESS, PRIVATE_ANONYMOUS, -1, 0);
            assert!(base as isize != -1, "memory is mapped");
            let start = base.cast::<u8>().add(PAGE);
            assert!(inner == 0 || mprotect(start.cast(), inner, READ_WRITE) == 0, "memory is opened");
            let first = start.add(inner - size).cast::<T>();
            for i in 0..length {
                first.add(i).write(value);
            }
            Guarded { base, mapped, first, length }
        }
    }

    pub fn of(values: &[T]) -> Guarded<T> {
        let Some(&value) = values.first() else {
            // Nothing is read of it, so that any value does.
            return Guarded::empty();
        };
        let mut guarded = Guarded::filled(value, values.len());
        guarded.copy_from_slice(values);
        guarded
    }

    fn empty() -> Guarded<T> {
        // Sound: no value is written or read.
        unsafe {
            let base = mmap(ptr::null_mut(), PAGE, NO_ACCESS, PRIVATE_ANONYMOUS, -1, 0);
            assert!(base as isize != -1, "memory is mapped");
            Guarded { base, mapped: PAGE, first: base.cast(), length: 0 }
        }
    }
}

impl<T: Copy> Deref for Guarded<T> {
    type Target = [T];

    fn deref(&self) -> &[T] {
        unsafe { slice::from_raw_parts(self.first, self.length) }
    }
}

impl<T: Copy> DerefMut for Guarded<T> {
    fn deref_mut(&mut self) -> &mut [T] {
        unsafe { slice::from_raw_parts_mut(self.first, self.length) }
    }
}

impl<T: Copy> Drop for Guarded<T> {
    fn drop(&mut self) {
        unsafe {
            munmap(self.base, self.mapped);
        }
    }
}
