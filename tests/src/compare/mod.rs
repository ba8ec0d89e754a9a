//! Two subjects, the same cases, every answer and every lent slice compared.

pub mod console_coverage;
pub mod consoles;
pub mod coverage;
pub mod exports;
pub mod one;
pub mod shrink;
mod shrink_tables;
mod shrink_texts;
pub mod tally;

use crate::random::cases::{case, Case, RunCase};
use crate::random::draft::Draft;
use crate::reference::table::{EMPTY, NOT};
use crate::subject::Subject;
use coverage::Coverage;
use one::compare_case;
use std::fmt;

pub struct Failure {
    pub seed: u64,
    pub difference: String,
    pub shrunk: Case,
    pub shrunk_difference: String,
}

pub struct Report {
    pub first_seed: u64,
    pub cases: u64,
    pub coverage: Coverage,
    pub failure: Option<Failure>,
}

/// Runs `count` cases, from `first_seed` on, up to the first that differs.
pub fn compare(left: &dyn Subject, right: &dyn Subject, first_seed: u64, count: u64) -> Report {
    let mut report = Report {
        first_seed,
        cases: 0,
        coverage: Coverage::default(),
        failure: None,
    };
    for seed in first_seed..first_seed + count {
        let case = case(seed, left.work_words());
        report.cases += 1;
        if let Err(difference) = compare_case(left, right, &case, &mut report.coverage) {
            report.failure = Some(failure(left, right, seed, case, difference));
            break;
        }
    }
    report
}

/// Each of these words as the kind of a node: first of a part, then of a body. How many there are.
pub fn compare_kinds(
    left: &dyn Subject,
    right: &dyn Subject,
    kinds: impl Iterator<Item = u16>,
) -> Result<usize, String> {
    let mut count = 0;
    for kind in kinds {
        for hurt in 0..2 {
            let mut draft = Draft::default();
            let part = draft.node(EMPTY, &[]);
            let body = draft.node(NOT, &[part]);
            draft.rule(body, &[], &[]);
            draft.nodes[hurt][0] = kind;
            let unseen = &mut Coverage::default();
            let case = run_case(left.work_words(), &draft);
            compare_case(left, right, &case, unseen)?;
        }
        count += 1;
    }
    Ok(count)
}

fn run_case(work_words: usize, draft: &Draft) -> Case {
    Case::Run(RunCase {
        display: false,
        words: draft.words(),
        literals: Vec::new(),
        message: Vec::new(),
        budget: 5,
        work: vec![1; work_words],
    })
}

fn failure(
    left: &dyn Subject,
    right: &dyn Subject,
    seed: u64,
    case: Case,
    difference: String,
) -> Failure {
    let differs = |case: &Case| {
        let unseen = &mut Coverage::default();
        compare_case(left, right, case, unseen).err()
    };
    let shrunk = shrink::shrink(case, |case| {
        shrink::smaller_case(case, &|case| differs(case).is_some())
    });
    let shrunk_difference = differs(&shrunk).unwrap_or_default();
    Failure {
        seed,
        difference,
        shrunk,
        shrunk_difference,
    }
}

/// Only where something was tried of everything, and nothing that can't be, is
/// it worth something that no difference was found.
pub fn whole(differs: bool, missing: &[String], strange: &[String]) -> Result<(), String> {
    if differs {
        return Err("they differ".to_string());
    }
    if !missing.is_empty() {
        return Err(format!("never reached: {missing:?}"));
    }
    if !strange.is_empty() {
        return Err(format!("what no question can answer: {strange:?}"));
    }
    Ok(())
}

impl Report {
    pub fn verdict(&self) -> Result<(), String> {
        let coverage = &self.coverage;
        whole(
            self.failure.is_some(),
            &coverage.missing(),
            &coverage.strange(),
        )
    }
}

impl fmt::Display for Report {
    fn fmt(&self, out: &mut fmt::Formatter) -> fmt::Result {
        writeln!(out, "first seed {}, {} cases", self.first_seed, self.cases)?;
        write!(out, "{}", self.coverage)?;
        match &self.failure {
            None => writeln!(out, "no difference"),
            Some(failure) => write!(out, "{failure}"),
        }
    }
}

impl fmt::Display for Failure {
    fn fmt(&self, out: &mut fmt::Formatter) -> fmt::Result {
        writeln!(out, "seed {}: {}", self.seed, self.difference)?;
        writeln!(out, "shrunk: {}", self.shrunk_difference)?;
        write!(out, "{}", shrink::shown(&self.shrunk))
    }
}
