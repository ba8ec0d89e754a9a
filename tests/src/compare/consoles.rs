//! Two consoles, the same inputs, everything they print compared.

use super::console_coverage::ConsoleCoverage;
use super::one::same;
use super::shrink::{shrink, smaller_input};
use super::whole;
use crate::random::consoles::{input, run_case_of};
use crate::subject::Console;
use std::cell::Cell;
use std::fmt;

/// As many as take some twenty seconds under an emulator; they reach everything.
pub const FEW: u64 = 600;

/// A program is started for every try, so a smaller input isn't sought for ever.
const MOST_TRIES: u32 = 3_000;

pub struct ConsoleFailure {
    pub seed: u64,
    pub difference: String,
    pub shrunk: Vec<u8>,
    pub shrunk_difference: String,
}

pub struct ConsoleReport {
    pub first_seed: u64,
    pub inputs: u64,
    pub coverage: ConsoleCoverage,
    pub failure: Option<ConsoleFailure>,
}

/// Gives `count` inputs, from `first_seed` on, up to the first that differs.
pub fn compare_consoles(
    left: &dyn Console,
    right: &dyn Console,
    first_seed: u64,
    count: u64,
) -> ConsoleReport {
    let mut report = ConsoleReport {
        first_seed,
        inputs: 0,
        coverage: ConsoleCoverage::default(),
        failure: None,
    };
    for seed in first_seed..first_seed + count {
        let input = input(seed);
        report.inputs += 1;
        match answered(left, right, &input) {
            Ok(output) => {
                let mode = run_case_of(&input, 0).map(|case| case.display);
                report.coverage.output(mode, &output);
            }
            Err(difference) => {
                report.failure = Some(failure(left, right, seed, input, difference));
                break;
            }
        }
    }
    report
}

/// What both print, or how they differ.
fn answered(left: &dyn Console, right: &dyn Console, input: &[u8]) -> Result<String, String> {
    let [output, other] = [left, right].map(|console| {
        let output = console.respond(input)?;
        Ok::<_, String>(String::from_utf8_lossy(&output).into_owned())
    });
    same("console", &output, &other)?;
    output
}

fn failure(
    left: &dyn Console,
    right: &dyn Console,
    seed: u64,
    input: Vec<u8>,
    difference: String,
) -> ConsoleFailure {
    let tries = Cell::new(0);
    let fails = |input: &Vec<u8>| {
        tries.set(tries.get() + 1);
        tries.get() <= MOST_TRIES && answered(left, right, input).is_err()
    };
    let shrunk = shrink(input, |input| smaller_input(input, &fails));
    let shrunk_difference = answered(left, right, &shrunk).err();
    ConsoleFailure {
        seed,
        difference,
        shrunk,
        shrunk_difference: shrunk_difference.unwrap_or_default(),
    }
}

impl ConsoleReport {
    pub fn verdict(&self) -> Result<(), String> {
        let coverage = &self.coverage;
        whole(
            self.failure.is_some(),
            &coverage.missing(),
            &coverage.strange(),
        )
    }
}

impl fmt::Display for ConsoleReport {
    fn fmt(&self, out: &mut fmt::Formatter) -> fmt::Result {
        let (first, last) = (self.first_seed, self.first_seed + self.inputs - 1);
        writeln!(out, "console inputs of seeds {first} to {last}")?;
        write!(out, "{}", self.coverage)?;
        match &self.failure {
            None => writeln!(out, "no difference"),
            Some(failure) => write!(out, "{failure}"),
        }
    }
}

impl fmt::Display for ConsoleFailure {
    fn fmt(&self, out: &mut fmt::Formatter) -> fmt::Result {
        writeln!(out, "seed {}: {}", self.seed, self.difference)?;
        writeln!(out, "shrunk: {}", self.shrunk_difference)?;
        writeln!(out, "{}", String::from_utf8_lossy(&self.shrunk))
    }
}
