//! What the cases of a `Subject` reached: each answer of each question, each sort
//! of value and of part, each kind. INPUT is the console's alone.

use super::tally::{Question, Tally};
use crate::numbers::*;
use crate::reference::run::{KindCounts, KINDS};
use crate::reference::table::sort_of_kind;
use crate::subject::{Home, Record, Span, Value};
use std::fmt;

#[derive(Clone, Copy)]
pub enum Asked {
    Check,
    TypeCheck,
    Bench,
    Display,
    Read,
    Write,
}

/// In the order of `Asked`. "Checks go 1, 2, 3, 4, then 5 (type check and display
/// run only), 6, 7, then the run"; a display run is never STUCK.
const QUESTIONS: [Question; 6] = [
    ("check", &[DONE, SIZE, FIELD, USE, START]),
    ("type check", &[DONE, SIZE, FIELD, USE, START, TYPE]),
    (
        "bench run",
        &[
            DONE, SIZE, FIELD, USE, START, LONG, WORK, NOMATCH, BUDGET, DEEP, STUCK, FAULT,
        ],
    ),
    (
        "display run",
        &[
            DONE, SIZE, FIELD, USE, START, TYPE, LONG, WORK, NOMATCH, BUDGET, DEEP, FAULT,
        ],
    ),
    ("read", &[DONE, LINE, ROOM]),
    ("write", &[DONE, SIZE, OUT]),
];

const VALUES: [&str; 5] = [
    "absent",
    "Bool",
    "Integer",
    "Text of the message",
    "Text of the literals",
];

const PARTS: [&str; 4] = [
    "of a value that is no Text",
    "of the message",
    "of the literals",
    "that doesn't fit",
];

pub struct Coverage {
    answers: Tally,
    values: [u64; 5],
    parts: [u64; 4],
    kinds: KindCounts,
}

impl Default for Coverage {
    fn default() -> Coverage {
        Coverage {
            answers: Tally::of(&QUESTIONS),
            values: [0; 5],
            parts: [0; 4],
            kinds: [0; KINDS],
        }
    }
}

impl Coverage {
    pub fn answer(&mut self, asked: Asked, number: u32) {
        self.answers.count(asked as usize, number);
    }

    /// The answer of a run, and its values if DONE.
    pub fn record(&mut self, display: bool, record: &Record) {
        let asked = if display {
            Asked::Display
        } else {
            Asked::Bench
        };
        self.answer(asked, record.number);
        if record.number == DONE {
            for value in record.values {
                match sort_of_value(value) {
                    Some(sort) => self.values[sort] += 1,
                    None => self.answers.wonder(format!("a value {value:?}")),
                }
            }
        }
    }

    /// The part that was handed out for a value.
    pub fn part(&mut self, value: Value, handed_out: Span) {
        let sort = match value {
            Value::Text(span) if span != handed_out => 3,
            Value::Text(span) if span.home == Home::Message => 1,
            Value::Text(_) => 2,
            _ => 0,
        };
        self.parts[sort] += 1;
    }

    pub fn kinds(&mut self, reached: &KindCounts) {
        for (count, more) in self.kinds.iter_mut().zip(reached) {
            *count += more;
        }
    }

    /// What was counted, by name.
    pub fn counts(&self) -> Vec<(String, u64)> {
        let mut all = self.answers.counts();
        for (name, &count) in VALUES.iter().zip(&self.values) {
            all.push((format!("value {name}"), count));
        }
        for (name, &count) in PARTS.iter().zip(&self.parts) {
            all.push((format!("part {name}"), count));
        }
        for kind in (0..KINDS).filter(|&kind| sort_of_kind(kind as u16).is_some()) {
            all.push((format!("kind {kind}"), self.kinds[kind]));
        }
        all
    }

    /// The names of what was never reached.
    pub fn missing(&self) -> Vec<String> {
        let never = self.counts().into_iter().filter(|(_, count)| *count == 0);
        never.map(|(name, _)| name).collect()
    }

    pub fn strange(&self) -> Vec<String> {
        self.answers.strange()
    }
}

fn sort_of_value(value: Value) -> Option<usize> {
    match value {
        Value::Absent => Some(0),
        Value::Bool(_) => Some(1),
        Value::Integer(_) => Some(2),
        Value::Text(span) if span.home == Home::Message => Some(3),
        Value::Text(_) => Some(4),
        Value::Stray { .. } => None,
    }
}

impl fmt::Display for Coverage {
    fn fmt(&self, out: &mut fmt::Formatter) -> fmt::Result {
        for (name, count) in self.counts() {
            writeln!(out, "{name}: {count}")?;
        }
        Ok(())
    }
}
