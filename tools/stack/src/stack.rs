//! A stack that ends in a page that can be neither read nor written.
use std::arch::asm;
use std::ffi::{c_int, c_void};
use std::{ptr, slice};

// Of x86-64 Linux.
const PAGE: usize = 4096;
const NO_ACCESS: c_int = 0;
const READ_WRITE: c_int = 1 | 2;
const PRIVATE_ANONYMOUS: c_int = 2 | 32;
// What the stack holds before a call.
const PAINT: u8 = 0xa5;

unsafe extern "C" {
    fn mmap(address: *mut c_void, length: usize, protection: c_int, flags: c_int, file: c_int, offset: i64) -> *mut c_void;
    fn mprotect(address: *mut c_void, length: usize, protection: c_int) -> c_int;
}

/// So many bytes, which lie right above the page. It is never given back: a process makes one or two.
pub struct Stack {
    lowest: *mut u8,
    size: usize,
}

// What is run on the stack, behind one pointer.
extern "C" fn start<F: FnMut()>(work: *mut c_void) {
    // Sound: `run` hands over its own closure, which outlives the call.
    let work = unsafe { &mut *work.cast::<F>() };
    work();
}

impl Stack {
    /// `size` is a multiple of 16.
    pub fn new(size: usize) -> Stack {
        let inner = size.next_multiple_of(PAGE);
        // Sound: the memory is new, and all but its first page is opened.
        unsafe {
            let base = mmap(ptr::null_mut(), inner + PAGE, NO_ACCESS, PRIVATE_ANONYMOUS, -1, 0);
            assert!(base as isize != -1, "memory is mapped");
            let lowest = base.cast::<u8>().add(PAGE);
            assert!(inner == 0 || mprotect(lowest.cast(), inner, READ_WRITE) == 0, "memory is opened");
            Stack { lowest, size }
        }
    }

    fn bytes(&mut self) -> &mut [u8] {
        // Sound: the bytes are mapped, and nothing runs on them now.
        unsafe { slice::from_raw_parts_mut(self.lowest, self.size) }
    }

    pub fn paint(&mut self) {
        self.bytes().fill(PAINT);
    }

    /// How far down from its top the stack has changed since it was painted.
    pub fn painted_over(&mut self) -> usize {
        let size = self.size;
        let untouched = self.bytes().iter().take_while(|&&byte| byte == PAINT).count();
        size - untouched
    }

    /// Runs work on this stack.
    pub fn run<F: FnMut()>(&mut self, mut work: F) {
        let work: *mut F = &mut work;
        // Sound: the stack pointer is kept in a register that a called function gives back as it was, and the top is a multiple of 16. Where the work panics the program ends, for `start`
        // is a function of C.
        unsafe {
            asm!(
                "mov r12, rsp",
                "mov rsp, {top}",
                "call {start}",
                "mov rsp, r12",
                top = in(reg) self.lowest.add(self.size),
                start = in(reg) start::<F> as extern "C" fn(*mut c_void),
                in("rdi") work.cast::<c_void>(),
                out("r12") _,
                clobber_abi("C"),
            );
        }
    }
}
