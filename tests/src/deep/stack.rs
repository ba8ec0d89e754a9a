//! A stack of a given size, with memory right below it that nobody may touch,
//! and calls that run on it. A thread can't do for it: the least size of a
//! thread's stack may be larger, and its own beginnings stand on it.

use std::arch::global_asm;
use std::ffi::c_void;

extern "C" {
    fn mmap(
        at: *mut c_void,
        length: usize,
        may: i32,
        how: i32,
        file: i32,
        from: i64,
    ) -> *mut c_void;
    fn mprotect(at: *mut c_void, length: usize, may: i32) -> i32;
    fn munmap(at: *mut c_void, length: usize) -> i32;
    fn getpagesize() -> i32;
    fn styrmflo_tests_call_on(top: *mut u8, function: *const c_void, words: *const u64) -> u64;
}

const READ_AND_WRITE: i32 = 1 | 2;
const NOTHING: i32 = 0;
const PRIVATE_AND_ANONYMOUS: i32 = 2 | 32;

/// More than a page: a function with a large frame may reach past one.
const GUARD: usize = 1 << 20;

/// The most words that an exported function takes.
pub const MOST_WORDS: usize = 11;

// styrmflo_tests_call_on(top, function, words): stores the stack pointer in a
// register that every function gives back as it was, sets it to `top`, and
// calls `function` with eleven words as its arguments: those that have no
// register stand on the new stack (TAKEN). Then it takes the old stack again
// and hands on what the function returned. A function with fewer parameters
// doesn't look at the other words.
#[cfg(target_arch = "x86_64")]
global_asm!(
    ".globl styrmflo_tests_call_on",
    "styrmflo_tests_call_on:",
    "push rbp",
    "mov rbp, rsp",
    "mov rsp, rdi",
    "sub rsp, 8",
    "push [rdx + 80]",
    "push [rdx + 72]",
    "push [rdx + 64]",
    "push [rdx + 56]",
    "push [rdx + 48]",
    "mov rax, rsi",
    "mov rdi, [rdx]",
    "mov rsi, [rdx + 8]",
    "mov rcx, [rdx + 24]",
    "mov r8, [rdx + 32]",
    "mov r9, [rdx + 40]",
    "mov rdx, [rdx + 16]",
    "call rax",
    "mov rsp, rbp",
    "pop rbp",
    "ret",
);

#[cfg(target_arch = "aarch64")]
global_asm!(
    ".globl styrmflo_tests_call_on",
    "styrmflo_tests_call_on:",
    "stp x29, x30, [sp, #-16]!",
    "mov x29, sp",
    "mov sp, x0",
    "sub sp, sp, #32",
    "mov x16, x1",
    "mov x17, x2",
    "ldp x0, x1, [x17, #64]",
    "stp x0, x1, [sp]",
    "ldr x0, [x17, #80]",
    "str x0, [sp, #16]",
    "ldp x0, x1, [x17]",
    "ldp x2, x3, [x17, #16]",
    "ldp x4, x5, [x17, #32]",
    "ldp x6, x7, [x17, #48]",
    "blr x16",
    "mov sp, x29",
    "ldp x29, x30, [sp], #16",
    "ret",
);

/// What the arguments take of the stack, which is the caller's part of it.
#[cfg(target_arch = "x86_64")]
const TAKEN: usize = 48;
#[cfg(target_arch = "aarch64")]
const TAKEN: usize = 32;

/// Stands on the stack before a call.
const PAINT: u8 = 0xa5;

/// What a call has done to the stack below its caller's part.
#[derive(Clone, Copy, Default)]
pub struct Used {
    /// How far down it goes to the lowest byte that was changed.
    pub down: usize,
    /// How many bytes were changed.
    pub changed: usize,
}

impl Used {
    /// The larger of each.
    pub fn or(self, other: Used) -> Used {
        Used {
            down: self.down.max(other.down),
            changed: self.changed.max(other.changed),
        }
    }
}

pub struct Stack {
    mapped: *mut c_void,
    mapped_bytes: usize,
    lowest: *mut u8,
    bytes: usize,
}

impl Stack {
    /// `bytes` is a multiple of 16, as the stack pointer must be.
    pub fn new(bytes: usize) -> Stack {
        assert!(bytes % 16 == 0 && bytes > TAKEN, "{bytes} bytes of stack");
        let page = unsafe { getpagesize() } as usize;
        let guard = GUARD.next_multiple_of(page);
        let mapped_bytes = guard + bytes.next_multiple_of(page);
        unsafe {
            let mapped = mmap(
                std::ptr::null_mut(),
                mapped_bytes,
                READ_AND_WRITE,
                PRIVATE_AND_ANONYMOUS,
                -1,
                0,
            );
            assert!(mapped as isize != -1, "no memory for a stack");
            assert!(mprotect(mapped, guard, NOTHING) == 0, "no guard page");
            Stack {
                mapped,
                mapped_bytes,
                lowest: (mapped as *mut u8).add(guard),
                bytes,
            }
        }
    }

    /// What the function returned, and what of the stack it has used.
    ///
    /// # Safety
    /// The words are such as the function may be called with.
    pub unsafe fn call(&self, function: *const c_void, words: &[u64]) -> (u64, Used) {
        let mut all = [0; MOST_WORDS];
        all[..words.len()].copy_from_slice(words);
        std::ptr::write_bytes(self.lowest, PAINT, self.bytes);
        let top = self.lowest.add(self.bytes);
        let returned = styrmflo_tests_call_on(top, function, all.as_ptr());
        let painted = std::slice::from_raw_parts(self.lowest, self.bytes - TAKEN);
        let untouched = painted.iter().take_while(|&&byte| byte == PAINT).count();
        let used = Used {
            down: painted.len() - untouched,
            changed: painted.iter().filter(|&&byte| byte != PAINT).count(),
        };
        (returned, used)
    }
}

impl Drop for Stack {
    fn drop(&mut self) {
        unsafe { munmap(self.mapped, self.mapped_bytes) };
    }
}
