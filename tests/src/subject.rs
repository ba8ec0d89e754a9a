//! A thing under test, seen only through slices and answers.
//!
//! `Subject` is the reader as functions, `Console` the console: bytes in, bytes
//! out. The reference is both. The exported functions (`exported`) are a
//! `Subject` alone, the console program (`program`) a `Console` alone; the
//! comparison knows nothing but the traits.

use crate::reference;

#[derive(Clone, Copy, Debug, PartialEq, Eq)]
pub enum Home {
    Message,
    Literals,
}

/// A part of one of the two lent slices.
#[derive(Clone, Copy, Debug, PartialEq, Eq)]
pub struct Span {
    pub home: Home,
    pub start: u32,
    pub length: u32,
}

#[derive(Clone, Copy, Debug, PartialEq, Eq)]
pub enum Value {
    Absent,
    Bool(bool),
    Integer(i32),
    Text(Span),
    /// Words at the boundary that stand for no value: a tag without a row, or a
    /// payload that its tag can't have. It is like no value of the reference's.
    Stray {
        tag: u32,
        payload: u32,
    },
}

#[derive(Clone, Copy, Debug, PartialEq, Eq)]
pub struct Record {
    pub number: u32,
    pub place: u32,
    pub consumed: u32,
    pub visits: u32,
    pub values: [Value; 4],
}

impl Record {
    /// "Consumed and values are zero or absent unless DONE; visits are 0
    /// unless the answer is 0 or 8 to 12."
    pub fn refusal(number: u32, place: u32) -> Record {
        Record {
            number,
            place,
            consumed: 0,
            visits: 0,
            values: [Value::Absent; 4],
        }
    }
}

/// `words` and `literals` are lengths, 0 unless the number is 0.
#[derive(Clone, Copy, Debug, PartialEq, Eq)]
pub struct ReadAnswer {
    pub number: u32,
    pub line: u32,
    pub words: usize,
    pub literals: usize,
}

/// `length` is 0 unless the number is 0.
#[derive(Clone, Copy, Debug, PartialEq, Eq)]
pub struct WriteAnswer {
    pub number: u32,
    pub length: usize,
}

pub trait Subject {
    /// W, "a fixed number of 32-bit words, at most 16,384".
    fn work_words(&self) -> usize;

    /// Number and place.
    fn check(&self, words: &[u16], literals: &[u8]) -> (u32, u32);

    /// Number and place.
    fn type_check(&self, words: &[u16], literals: &[u8]) -> (u32, u32);

    fn run(
        &self,
        display: bool,
        words: &[u16],
        literals: &[u8],
        message: &[u8],
        budget: u32,
        work: &mut [u32],
    ) -> Record;

    fn read(&self, text: &[u8], words: &mut [u16], literals: &mut [u8]) -> ReadAnswer;

    fn write(&self, words: &[u16], literals: &[u8], text: &mut [u8]) -> WriteAnswer;

    /// Where the bytes handed out lie: the slice, their start in it, how many.
    /// Nothing for a value that the subject can't be asked about.
    fn text_bytes(&self, message: &[u8], literals: &[u8], value: Value) -> Option<Span>;
}

pub trait Console {
    /// What is printed, or why nothing whole came.
    fn respond(&self, input: &[u8]) -> Result<Vec<u8>, String>;
}

pub struct Reference {
    pub work_words: usize,
}

impl Subject for Reference {
    fn work_words(&self) -> usize {
        self.work_words
    }

    fn check(&self, words: &[u16], literals: &[u8]) -> (u32, u32) {
        reference::check::check(words, literals)
    }

    fn type_check(&self, words: &[u16], literals: &[u8]) -> (u32, u32) {
        reference::types::type_check(words, literals)
    }

    fn run(
        &self,
        display: bool,
        words: &[u16],
        literals: &[u8],
        message: &[u8],
        budget: u32,
        work: &mut [u32],
    ) -> Record {
        let lent = reference::run::Lent {
            display,
            words,
            literals,
            message,
            budget,
        };
        reference::run::run(&lent, work, self.work_words)
    }

    fn read(&self, text: &[u8], words: &mut [u16], literals: &mut [u8]) -> ReadAnswer {
        reference::listing::read(text, words, literals)
    }

    fn write(&self, words: &[u16], literals: &[u8], text: &mut [u8]) -> WriteAnswer {
        reference::listing::write(words, literals, text)
    }

    fn text_bytes(&self, message: &[u8], literals: &[u8], value: Value) -> Option<Span> {
        Some(reference::text::text_bytes(message, literals, value))
    }
}

impl Console for Reference {
    fn respond(&self, input: &[u8]) -> Result<Vec<u8>, String> {
        Ok(reference::console::console(input))
    }
}
