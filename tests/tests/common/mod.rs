#![allow(dead_code)]

use reader_tests::random::draft::Draft;
use reader_tests::reference::table::*;
use reader_tests::subject::{Home, Record, Reference, Span, Subject, Value};

pub const W: usize = 100;
pub const REFERENCE: Reference = Reference { work_words: W };

pub fn bench(draft: &Draft, message: &[u8], budget: u32) -> Record {
    run(false, draft, message, budget)
}

pub fn display(draft: &Draft, message: &[u8], budget: u32) -> Record {
    run(true, draft, message, budget)
}

fn run(display: bool, draft: &Draft, message: &[u8], budget: u32) -> Record {
    let mut work = [7; W + 3];
    let words = draft.words();
    REFERENCE.run(display, &words, &draft.literals, message, budget, &mut work)
}

pub fn check(draft: &Draft) -> (u32, u32) {
    REFERENCE.check(&draft.words(), &draft.literals)
}

pub fn type_check(draft: &Draft) -> (u32, u32) {
    REFERENCE.type_check(&draft.words(), &draft.literals)
}

/// Number, place and visits of an answer without values.
pub fn ended(number: u32, place: u16, visits: u32) -> Record {
    Record {
        visits,
        ..Record::refusal(number, place as u32)
    }
}

pub fn done(consumed: u32, visits: u32, values: &[Value]) -> Record {
    let mut record = ended(0, 0, visits);
    record.consumed = consumed;
    record.values[..values.len()].copy_from_slice(values);
    record
}

pub fn of_message(start: u32, length: u32) -> Value {
    Value::Text(Span {
        home: Home::Message,
        start,
        length,
    })
}

pub fn of_literals(start: u32, length: u32) -> Value {
    Value::Text(Span {
        home: Home::Literals,
        start,
        length,
    })
}

pub fn integer(draft: &mut Draft, value: i32) -> u16 {
    let bits = value as u32;
    draft.node(INTEGER, &[(bits >> 16) as u16, bits as u16])
}

pub fn set_integer(draft: &mut Draft, slot: u16, value: i32) -> u16 {
    let value = integer(draft, value);
    draft.node(UPDATE, &[slot, value])
}

pub fn terminal(draft: &mut Draft, byte: u8) -> u16 {
    draft.node(TERMINAL, &[byte as u16])
}

/// A rule whose body is empty and which returns one expression.
pub fn returning(draft: &mut Draft, node: u16, given: u16) {
    let body = draft.node(EMPTY, &[]);
    draft.rule(body, &[], &[(node, given)]);
}

pub fn case_a() -> Draft {
    let mut draft = Draft::default();
    let terminal = terminal(&mut draft, 71);
    let body = draft.node(BIND, &[0, terminal]);
    let slot = draft.node(SLOT, &[0]);
    draft.rule(body, &[], &[(slot, TEXT_TYPE)]);
    draft
}

/// `count` nots over empty.
pub fn nots(count: usize) -> Draft {
    let mut draft = Draft::default();
    let mut body = draft.node(EMPTY, &[]);
    for _ in 0..count {
        body = draft.node(NOT, &[body]);
    }
    draft.rule(body, &[], &[]);
    draft
}
