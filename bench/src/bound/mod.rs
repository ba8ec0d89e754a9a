//! What bounds the time of a run: cases that are made for one part of it each, and random ones on which the whole bound is tried. `bench/bound` counts them.

pub mod count;
pub mod full;
pub mod nests;
pub mod strays;
pub mod values;
pub mod wholes;

use crate::grammars::Work;
use reader_tests::exported::WORK_WORDS;
use reader_tests::library::Library;
use reader_tests::random::draft::Draft;
use reader_tests::subject::{Record, Subject};
use std::hint::black_box;

/// What is called.
#[derive(Clone, Copy, Debug, PartialEq, Eq)]
pub enum Call {
    Check,
    TypeCheck,
    Bench,
    Display,
}

/// One call of one function. Group, name and size say what it is for.
pub struct Case {
    pub group: &'static str,
    pub name: String,
    pub size: usize,
    pub call: Call,
    pub work: Work,
    pub budget: u32,
    pub area: Vec<u32>,
}

impl Case {
    pub fn new(group: &'static str, name: &str, size: usize, call: Call, work: Work) -> Case {
        Case {
            group,
            name: name.to_string(),
            size,
            call,
            work,
            budget: u32::MAX,
            area: vec![0; WORK_WORDS],
        }
    }

    pub fn with_budget(self, budget: u32) -> Case {
        Case { budget, ..self }
    }

    /// Number, place and visits. The proved reader is called just once.
    pub fn make(&mut self) -> (u32, u32, u32) {
        let work = &self.work;
        let words = black_box(&work.words);
        match self.call {
            Call::Check => checked(Library.check(words, &work.literals)),
            Call::TypeCheck => checked(Library.type_check(words, &work.literals)),
            Call::Bench | Call::Display => {
                let display = self.call == Call::Display;
                let area = &mut self.area;
                let Record {
                    number,
                    place,
                    visits,
                    ..
                } = Library.run(
                    display,
                    words,
                    &work.literals,
                    &work.message,
                    self.budget,
                    area,
                );
                (number, place, visits)
            }
        }
    }
}

fn checked((number, place): (u32, u32)) -> (u32, u32, u32) {
    (number, place, 0)
}

pub fn work(draft: Draft, message: Vec<u8>) -> Work {
    Work {
        words: draft.words(),
        literals: draft.literals,
        message,
    }
}

/// All but the random ones.
pub fn made_for_a_part() -> Vec<Case> {
    let mut cases = full::cases();
    cases.extend(nests::cases());
    cases.extend(values::cases());
    cases.extend(wholes::cases());
    cases
}
