//! How often each question got each of the answers that document 01 lets it have.

use crate::numbers::ALL;
use std::collections::BTreeSet;

/// A question and the numbers that can answer it.
pub type Question = (&'static str, &'static [u32]);

pub struct Tally {
    questions: &'static [Question],
    counts: Vec<Vec<u64>>,
    strange: BTreeSet<String>,
}

impl Tally {
    pub fn of(questions: &'static [Question]) -> Tally {
        let zeros = |(_, numbers): &Question| vec![0; numbers.len()];
        Tally {
            questions,
            counts: questions.iter().map(zeros).collect(),
            strange: BTreeSet::new(),
        }
    }

    pub fn count(&mut self, question: usize, number: u32) {
        let (asked, numbers) = self.questions[question];
        match numbers.iter().position(|&possible| possible == number) {
            Some(index) => self.counts[question][index] += 1,
            None => {
                self.strange.insert(format!("{asked} answered {number}"));
            }
        }
    }

    /// Something else that can't come.
    pub fn wonder(&mut self, what: String) {
        self.strange.insert(what);
    }

    /// What was counted, by name.
    pub fn counts(&self) -> Vec<(String, u64)> {
        let named = |number: u32| ALL.iter().find(|known| known.0 == number);
        let mut all = Vec::new();
        for ((asked, numbers), counts) in self.questions.iter().zip(&self.counts) {
            for (&number, &count) in numbers.iter().zip(counts) {
                let name = named(number).map_or("?", |known| known.1);
                all.push((format!("{asked}: {number} {name}"), count));
            }
        }
        all
    }

    /// What came and can't come, as an answer that its question can't have. Both
    /// sides gave it, so that no comparison would tell.
    pub fn strange(&self) -> Vec<String> {
        self.strange.iter().cloned().collect()
    }
}
