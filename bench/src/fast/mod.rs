//! The third contender: an interpreter of the same tables in safe Rust, written for speed.
//!
//! What it may use is what the proved reader uses: the lent slices, the W words of the work area and the stack. Like the proved reader it is lent the words anew with every
//! message and checks them, and it answers to every table, message and budget as document 01 says (`bench/src/bin/agree.rs`). Unlike the proved reader it recurses over
//! expressions and in the type check, as deep as the tables nest.

mod attributes;
mod checks;
mod drive;
mod expressions;
mod runs;
mod slots;
mod table;
mod types;

use reader_tests::exported::WORK_WORDS;
use reader_tests::numbers::{DONE, SIZE};
use reader_tests::reference::run::Lent;
use reader_tests::reference::text;
use reader_tests::subject::{ReadAnswer, Record, Span, Subject, Value, WriteAnswer};
use table::Records;

pub struct Fast;

/// Number and place of a table: checks 1 to 4, and 5 if the types are asked for.
fn verdict(words: &[u16], literals: &[u8], typed: bool) -> (u32, u32) {
    let Some(table) = Records::of(words, literals) else {
        return (SIZE, 0);
    };
    match checks::check(&table) {
        (DONE, _) if typed => types::type_check(&table),
        answer => answer,
    }
}

impl Subject for Fast {
    fn work_words(&self) -> usize {
        WORK_WORDS
    }

    fn check(&self, words: &[u16], literals: &[u8]) -> (u32, u32) {
        verdict(words, literals, false)
    }

    fn type_check(&self, words: &[u16], literals: &[u8]) -> (u32, u32) {
        verdict(words, literals, true)
    }

    fn run(
        &self,
        display: bool,
        words: &[u16],
        literals: &[u8],
        message: &[u8],
        budget: u32,
        work: &mut [u32],
    ) -> Record {
        let lent = Lent {
            display,
            words,
            literals,
            message,
            budget,
        };
        runs::run(&lent, work)
    }

    fn read(&self, _: &[u8], _: &mut [u16], _: &mut [u8]) -> ReadAnswer {
        unimplemented!("the fast contender reads no listings")
    }

    fn write(&self, _: &[u16], _: &[u8], _: &mut [u8]) -> WriteAnswer {
        unimplemented!("the fast contender writes no listings")
    }

    /// Not measured, so not written a second time.
    fn text_bytes(&self, message: &[u8], literals: &[u8], value: Value) -> Option<Span> {
        Some(text::text_bytes(message, literals, value))
    }
}
