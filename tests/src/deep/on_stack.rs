//! The exported functions of the linked library, called on a small stack.

use super::stack::{Stack, Used};
use crate::exported::{Exports, WORK_WORDS};
use crate::library;
use crate::reference::run::Lent;
use std::cell::RefCell;
use std::ffi::c_void;

/// The exported functions, by name.
pub const NAMES: [&str; 8] = [
    "styrmflo_check",
    "styrmflo_type_check",
    "styrmflo_bench",
    "styrmflo_display",
    "styrmflo_read",
    "styrmflo_write",
    "styrmflo_text",
    "styrmflo_version",
];
const CHECK: usize = 0;
const TYPE_CHECK: usize = 1;
const BENCH: usize = 2;
const DISPLAY: usize = 3;
const READ: usize = 4;
const WRITE: usize = 5;
const TEXT: usize = 6;
const VERSION: usize = 7;

fn address(function: usize) -> *const c_void {
    match function {
        CHECK => library::styrmflo_check as *const c_void,
        TYPE_CHECK => library::styrmflo_type_check as *const c_void,
        BENCH => library::styrmflo_bench as *const c_void,
        DISPLAY => library::styrmflo_display as *const c_void,
        READ => library::styrmflo_read as *const c_void,
        WRITE => library::styrmflo_write as *const c_void,
        TEXT => library::styrmflo_text as *const c_void,
        _ => library::styrmflo_version as *const c_void,
    }
}

pub struct OnStack {
    stack: Stack,
    seen: RefCell<[Option<Used>; NAMES.len()]>,
}

impl OnStack {
    pub fn new(bytes: usize) -> OnStack {
        OnStack {
            stack: Stack::new(bytes),
            seen: RefCell::default(),
        }
    }

    /// The most that each function was seen to use; nothing for one that wasn't
    /// called.
    pub fn seen(&self) -> [Option<Used>; NAMES.len()] {
        *self.seen.borrow()
    }

    /// # Safety
    /// The words are such as the function may be called with.
    unsafe fn call(&self, function: usize, words: &[u64]) -> u64 {
        let (returned, used) = self.stack.call(address(function), words);
        let seen = &mut self.seen.borrow_mut()[function];
        *seen = Some(seen.unwrap_or_default().or(used));
        returned
    }
}

/// A slice as it is lent: its address and how many elements it has.
fn lent<T>(slice: &[T]) -> [u64; 2] {
    [slice.as_ptr() as u64, slice.len() as u64]
}

fn lent_to_write<T>(slice: &mut [T]) -> [u64; 2] {
    [slice.as_mut_ptr() as u64, slice.len() as u64]
}

impl Exports for OnStack {
    fn work_words(&self) -> usize {
        WORK_WORDS
    }

    fn version(&self) -> u32 {
        unsafe { self.call(VERSION, &[]) as u32 }
    }

    fn check(&self, words: &[u16], literals: &[u8]) -> u32 {
        let given = [lent(words), lent(literals)].concat();
        unsafe { self.call(CHECK, &given) as u32 }
    }

    fn type_check(&self, words: &[u16], literals: &[u8]) -> u32 {
        let given = [lent(words), lent(literals)].concat();
        unsafe { self.call(TYPE_CHECK, &given) as u32 }
    }

    fn run_into(&self, asked: &Lent, work: &mut [u32], twelve: &mut [u32]) {
        let mut given = [lent(asked.words), lent(asked.literals), lent(asked.message)].concat();
        given.push(u64::from(asked.budget));
        given.extend(lent_to_write(work));
        given.extend(lent_to_write(twelve));
        let function = if asked.display { DISPLAY } else { BENCH };
        unsafe { self.call(function, &given) };
    }

    fn read_into(&self, text: &[u8], words: &mut [u16], literals: &mut [u8], answer: &mut [u64]) {
        let mut given = lent(text).to_vec();
        given.extend(lent_to_write(words));
        given.extend(lent_to_write(literals));
        given.extend(lent_to_write(answer));
        unsafe { self.call(READ, &given) };
    }

    fn write_into(&self, words: &[u16], literals: &[u8], text: &mut [u8], answer: &mut [u64]) {
        let mut given = [lent(words), lent(literals)].concat();
        given.extend(lent_to_write(text));
        given.extend(lent_to_write(answer));
        unsafe { self.call(WRITE, &given) };
    }

    fn text_word(&self, message: usize, literals: usize, tag: u32, payload: u32) -> u64 {
        let given = [message, literals, tag as usize, payload as usize].map(|word| word as u64);
        unsafe { self.call(TEXT, &given) }
    }
}
