//! The exported functions (docs/FIRMWARE.md), whoever calls them: slices in,
//! words out. And what these words stand for.

use crate::reference::run::Lent;
use crate::subject::{Home, ReadAnswer, Record, Span, Subject, Value, WriteAnswer};

/// W, as docs/WORK.md states it.
pub const WORK_WORDS: usize = 9_760;

/// The version of the exported functions, as docs/styrmflo.h states it.
pub const VERSION: u32 = 1;

/// As they are called: the words of an answer go into a slice that the caller
/// lends, whatever its length.
pub trait Exports {
    /// W, as the caller knows it.
    fn work_words(&self) -> usize;

    fn version(&self) -> u32;

    fn check(&self, words: &[u16], literals: &[u8]) -> u32;

    fn type_check(&self, words: &[u16], literals: &[u8]) -> u32;

    fn run_into(&self, lent: &Lent, work: &mut [u32], twelve: &mut [u32]);

    fn read_into(&self, text: &[u8], words: &mut [u16], literals: &mut [u8], answer: &mut [u64]);

    fn write_into(&self, words: &[u16], literals: &[u8], text: &mut [u8], answer: &mut [u64]);

    fn text_word(&self, message: usize, literals: usize, tag: u32, payload: u32) -> u64;
}

fn verdict(word: u32) -> (u32, u32) {
    (word / 65_536, word % 65_536)
}

pub fn value(tag: u32, payload: u32) -> Value {
    let span = |home| {
        Value::Text(Span {
            home,
            start: payload / 65_536,
            length: payload % 65_536,
        })
    };
    match (tag, payload) {
        (0, 0) => Value::Absent,
        (1, 0) => Value::Bool(false),
        (1, 1) => Value::Bool(true),
        (2, _) => Value::Integer(payload as i32),
        (3, _) => span(Home::Message),
        (4, _) => span(Home::Literals),
        _ => Value::Stray { tag, payload },
    }
}

/// Nothing for a Text that no answer can hold: over 16 bits it has no words to
/// ask with.
fn words_of(value: Value) -> Option<(u32, u32)> {
    Some(match value {
        Value::Absent => (0, 0),
        Value::Bool(b) => (1, b as u32),
        Value::Integer(z) => (2, z as u32),
        Value::Text(span) => {
            if span.start > 65_535 || span.length > 65_535 {
                return None;
            }
            let tag = if span.home == Home::Message { 3 } else { 4 };
            (tag, span.start * 65_536 + span.length)
        }
        Value::Stray { tag, payload } => (tag, payload),
    })
}

/// A number that no answer has: words that stand for no answer are told by it.
const NO_NUMBER: u32 = u32::MAX;

/// Stands in a lent slice before the call, so that a word which isn't written
/// is no zero.
const UNWRITTEN: u8 = 0xa5;

fn narrow(word: u64) -> u32 {
    u32::try_from(word).unwrap_or(NO_NUMBER)
}

pub fn record(twelve: &[u32; 12]) -> Record {
    let at = |i: usize| value(twelve[4 + 2 * i], twelve[5 + 2 * i]);
    Record {
        number: twelve[0],
        place: twelve[1],
        consumed: twelve[2],
        visits: twelve[3],
        values: [at(0), at(1), at(2), at(3)],
    }
}

pub fn read_answer(answer: &[u64; 4]) -> ReadAnswer {
    ReadAnswer {
        number: narrow(answer[0]),
        line: narrow(answer[1]),
        words: answer[2] as usize,
        literals: answer[3] as usize,
    }
}

/// The second and the fourth word are always 0.
pub fn write_answer(answer: &[u64; 4]) -> WriteAnswer {
    let number = match (answer[1], answer[3]) {
        (0, 0) => narrow(answer[0]),
        _ => NO_NUMBER,
    };
    WriteAnswer {
        number,
        length: answer[2] as usize,
    }
}

/// Bits 31 to 16 and 15 to 0 are start and length. What stands above them is 0
/// for the message and 1 for the literals; anything else is told by a start that
/// no part has.
pub fn part(word: u64) -> Span {
    let (home, start) = match word >> 32 {
        0 => (Home::Message, (word >> 16) as u32 & 65_535),
        1 => (Home::Literals, (word >> 16) as u32 & 65_535),
        _ => (Home::Message, u32::MAX),
    };
    Span {
        home,
        start,
        length: word as u32 & 65_535,
    }
}

impl<E: Exports> Subject for E {
    fn work_words(&self) -> usize {
        Exports::work_words(self)
    }

    fn check(&self, words: &[u16], literals: &[u8]) -> (u32, u32) {
        verdict(Exports::check(self, words, literals))
    }

    fn type_check(&self, words: &[u16], literals: &[u8]) -> (u32, u32) {
        verdict(Exports::type_check(self, words, literals))
    }

    fn run(
        &self,
        display: bool,
        words: &[u16],
        literals: &[u8],
        message: &[u8],
        budget: u32,
        work: &mut [u32],
    ) -> Record {
        let lent = Lent {
            display,
            words,
            literals,
            message,
            budget,
        };
        let mut twelve = [u32::from(UNWRITTEN); 12];
        self.run_into(&lent, work, &mut twelve);
        record(&twelve)
    }

    fn read(&self, text: &[u8], words: &mut [u16], literals: &mut [u8]) -> ReadAnswer {
        let mut answer = [u64::from(UNWRITTEN); 4];
        self.read_into(text, words, literals, &mut answer);
        read_answer(&answer)
    }

    fn write(&self, words: &[u16], literals: &[u8], text: &mut [u8]) -> WriteAnswer {
        let mut answer = [u64::from(UNWRITTEN); 4];
        self.write_into(words, literals, text, &mut answer);
        write_answer(&answer)
    }

    fn text_bytes(&self, message: &[u8], literals: &[u8], value: Value) -> Option<Span> {
        let (tag, payload) = words_of(value)?;
        Some(part(self.text_word(
            message.len(),
            literals.len(),
            tag,
            payload,
        )))
    }
}
