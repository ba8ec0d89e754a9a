//! The proved reader's static library, linked into this program.

use crate::exported::{Exports, WORK_WORDS};
use crate::reference::run::Lent;

// Counts are 64 bits wide on every processor, as in docs/styrmflo.h.
extern "C" {
    pub(crate) fn styrmflo_version() -> u32;
    pub(crate) fn styrmflo_check(words: *const u16, n: u64, literals: *const u8, l: u64) -> u32;
    pub(crate) fn styrmflo_type_check(
        words: *const u16,
        n: u64,
        literals: *const u8,
        l: u64,
    ) -> u32;
    pub(crate) fn styrmflo_bench(
        words: *const u16,
        n: u64,
        literals: *const u8,
        l: u64,
        message: *const u8,
        m: u64,
        budget: u32,
        work: *mut u32,
        w: u64,
        twelve: *mut u32,
        t: u64,
    );
    pub(crate) fn styrmflo_display(
        words: *const u16,
        n: u64,
        literals: *const u8,
        l: u64,
        message: *const u8,
        m: u64,
        budget: u32,
        work: *mut u32,
        w: u64,
        twelve: *mut u32,
        t: u64,
    );
    pub(crate) fn styrmflo_read(
        text: *const u8,
        x: u64,
        words: *mut u16,
        n: u64,
        literals: *mut u8,
        l: u64,
        answer: *mut u64,
        a: u64,
    );
    pub(crate) fn styrmflo_write(
        words: *const u16,
        n: u64,
        literals: *const u8,
        l: u64,
        text: *mut u8,
        x: u64,
        answer: *mut u64,
        a: u64,
    );
    pub(crate) fn styrmflo_text(message: u64, literals: u64, tag: u32, payload: u32) -> u64;
}

pub struct Library;

impl Exports for Library {
    fn work_words(&self) -> usize {
        WORK_WORDS
    }

    fn version(&self) -> u32 {
        unsafe { styrmflo_version() }
    }

    fn check(&self, words: &[u16], literals: &[u8]) -> u32 {
        unsafe {
            styrmflo_check(
                words.as_ptr(),
                words.len() as u64,
                literals.as_ptr(),
                literals.len() as u64,
            )
        }
    }

    fn type_check(&self, words: &[u16], literals: &[u8]) -> u32 {
        unsafe {
            styrmflo_type_check(
                words.as_ptr(),
                words.len() as u64,
                literals.as_ptr(),
                literals.len() as u64,
            )
        }
    }

    fn run_into(&self, lent: &Lent, work: &mut [u32], twelve: &mut [u32]) {
        let run = if lent.display {
            styrmflo_display
        } else {
            styrmflo_bench
        };
        unsafe {
            run(
                lent.words.as_ptr(),
                lent.words.len() as u64,
                lent.literals.as_ptr(),
                lent.literals.len() as u64,
                lent.message.as_ptr(),
                lent.message.len() as u64,
                lent.budget,
                work.as_mut_ptr(),
                work.len() as u64,
                twelve.as_mut_ptr(),
                twelve.len() as u64,
            );
        }
    }

    fn read_into(&self, text: &[u8], words: &mut [u16], literals: &mut [u8], answer: &mut [u64]) {
        unsafe {
            styrmflo_read(
                text.as_ptr(),
                text.len() as u64,
                words.as_mut_ptr(),
                words.len() as u64,
                literals.as_mut_ptr(),
                literals.len() as u64,
                answer.as_mut_ptr(),
                answer.len() as u64,
            );
        }
    }

    fn write_into(&self, words: &[u16], literals: &[u8], text: &mut [u8], answer: &mut [u64]) {
        unsafe {
            styrmflo_write(
                words.as_ptr(),
                words.len() as u64,
                literals.as_ptr(),
                literals.len() as u64,
                text.as_mut_ptr(),
                text.len() as u64,
                answer.as_mut_ptr(),
                answer.len() as u64,
            );
        }
    }

    fn text_word(&self, message: usize, literals: usize, tag: u32, payload: u32) -> u64 {
        unsafe { styrmflo_text(message as u64, literals as u64, tag, payload) }
    }
}
