//! How often each answer was printed, in which mode, and each sort of value.

use super::tally::{Question, Tally};
use crate::numbers::*;
use std::fmt;

pub struct ConsoleCoverage {
    answers: Tally,
    values: [u64; 5],
}

/// What a console can answer: docs/DECISIONS.md says why the others never come
/// (reading 42).
const QUESTIONS: [Question; 3] = [
    ("no run", &[LINE, INPUT]),
    (
        "bench run",
        &[DONE, FIELD, USE, START, NOMATCH, BUDGET, DEEP, STUCK, FAULT],
    ),
    (
        "display run",
        &[DONE, FIELD, USE, START, TYPE, NOMATCH, BUDGET, DEEP, FAULT],
    ),
];

const VALUES: [&str; 5] = ["absent", "Bool", "Integer", "Text", "empty Text"];

impl Default for ConsoleCoverage {
    fn default() -> ConsoleCoverage {
        ConsoleCoverage {
            answers: Tally::of(&QUESTIONS),
            values: [0; 5],
        }
    }
}

impl ConsoleCoverage {
    /// `display` is the mode asked for, if the lines were right.
    pub fn output(&mut self, display: Option<bool>, output: &str) {
        let question = display.map_or(0, |display| 1 + display as usize);
        for line in output.lines() {
            if let Some(number) = line.strip_prefix("answer=") {
                let number = number.parse().unwrap_or(u32::MAX);
                self.answers.count(question, number);
            }
            if let Some(value) = line.strip_prefix("value=") {
                match sort_of_value(value) {
                    Some(sort) => self.values[sort] += 1,
                    None => self.answers.wonder(format!("value {value}")),
                }
            }
        }
    }

    fn counts(&self) -> Vec<(String, u64)> {
        let mut all = self.answers.counts();
        for (name, &count) in VALUES.iter().zip(&self.values) {
            all.push((format!("value {name}"), count));
        }
        all
    }

    /// The names of what was never reached.
    pub fn missing(&self) -> Vec<String> {
        let never = self.counts().into_iter().filter(|(_, count)| *count == 0);
        never.map(|(name, _)| name).collect()
    }

    pub fn strange(&self) -> Vec<String> {
        self.answers.strange()
    }
}

fn sort_of_value(value: &str) -> Option<usize> {
    match value.as_bytes() {
        b"0" => Some(0),
        b"1 0" | b"1 1" => Some(1),
        [b'2', b' ', _, ..] => Some(2),
        [b'3', b' ', _, ..] => Some(3),
        b"3" => Some(4),
        _ => None,
    }
}

impl fmt::Display for ConsoleCoverage {
    fn fmt(&self, out: &mut fmt::Formatter) -> fmt::Result {
        for (name, count) in self.counts() {
            writeln!(out, "{name}: {count}")?;
        }
        Ok(())
    }
}
