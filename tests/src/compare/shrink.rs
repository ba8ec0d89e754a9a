//! Makes a failing case smaller as long as it still fails, and shows it.

use super::shrink_tables::smaller_tables;
use super::shrink_texts::{fewer_lines, shorter};
use crate::random::cases::{Case, ReadCase, RunCase, TextCase, WriteCase};
use crate::random::consoles::{input_of, run_case_of};
use crate::random::draft::Draft;
use crate::reference::listing::hex_of;

const MOST_ROUNDS: usize = 2_000;

/// Made one by one, as long as none fails.
pub type Smaller<'a, T> = Box<dyn Iterator<Item = T> + 'a>;

/// `smaller` gives the first smaller one that still fails.
pub fn shrink<T>(failing: T, smaller: impl Fn(&T) -> Option<T>) -> T {
    let mut small = failing;
    for _ in 0..MOST_ROUNDS {
        match smaller(&small) {
            Some(other) => small = other,
            None => break,
        }
    }
    small
}

pub fn smaller_case(case: &Case, fails: &dyn Fn(&Case) -> bool) -> Option<Case> {
    match case {
        Case::Run(case) => first_smaller_run(case, &|case| Some(Case::Run(case)), fails),
        Case::Read(case) => first_smaller_text(&case.text, fails, &|text| {
            Case::Read(ReadCase {
                text,
                ..case.clone()
            })
        }),
        Case::Write(case) => first_smaller_write(case, fails),
        Case::Text(case) => first_smaller_text(&case.message, fails, &|message| {
            Case::Text(TextCase {
                message,
                ..case.clone()
            })
        }),
    }
}

/// A console input by its table, message and budget if its lines are right, else by its lines.
pub fn smaller_input(input: &Vec<u8>, fails: &dyn Fn(&Vec<u8>) -> bool) -> Option<Vec<u8>> {
    match run_case_of(input, 0) {
        Some(case) => first_smaller_run(&case, &|case| input_of(&case), fails),
        None => first_smaller_text(input, fails, &|text| text),
    }
}

fn first_smaller_text<T>(
    text: &[u8],
    fails: &dyn Fn(&T) -> bool,
    whole: &dyn Fn(Vec<u8>) -> T,
) -> Option<T> {
    let texts = fewer_lines(text).into_iter().chain(shorter(text));
    texts.map(whole).find(fails)
}

fn first_smaller_write(case: &WriteCase, fails: &dyn Fn(&Case) -> bool) -> Option<Case> {
    let draft = Draft::of(&case.words, &case.literals)?;
    let cases = smaller_tables(&draft).map(|draft| {
        Case::Write(WriteCase {
            words: draft.words(),
            literals: draft.literals,
            text: case.text.clone(),
        })
    });
    let shorter = shorter(&case.text).map(|text| {
        Case::Write(WriteCase {
            text,
            ..case.clone()
        })
    });
    let mut cases = cases.chain(shorter);
    cases.find(fails)
}

/// `whole` makes what is compared from the smaller run.
fn first_smaller_run<T>(
    case: &RunCase,
    whole: &dyn Fn(RunCase) -> Option<T>,
    fails: &dyn Fn(&T) -> bool,
) -> Option<T> {
    let draft = Draft::of(&case.words, &case.literals);
    let tables = draft.iter().flat_map(smaller_tables).map(|draft| RunCase {
        words: draft.words(),
        literals: draft.literals,
        ..case.clone()
    });
    let messages = shorter(&case.message).map(|message| RunCase {
        message,
        ..case.clone()
    });
    let runs = tables.chain(messages).chain(plainer_runs(case));
    let mut cases = runs.filter_map(whole);
    cases.find(fails)
}

/// A lower budget, a clean work area, the bench.
fn plainer_runs(case: &RunCase) -> Vec<RunCase> {
    let mut all = Vec::new();
    let now = case.budget;
    for budget in [0, 1, 10, 100, 1_000, now / 2, now.saturating_sub(1)] {
        if budget < now {
            all.push(RunCase {
                budget,
                ..case.clone()
            });
        }
    }
    if case.work.iter().any(|&word| word != 0) {
        all.push(RunCase {
            work: vec![0; case.work.len()],
            ..case.clone()
        });
    }
    if case.display {
        all.push(RunCase {
            display: false,
            ..case.clone()
        });
    }
    all
}

/// Console input where it can be told that way.
pub fn shown(case: &Case) -> String {
    match case {
        Case::Run(case) => match input_of(case) {
            Some(input) => format!(
                "work words {}; console input:\n{}",
                case.work.len(),
                String::from_utf8_lossy(&input)
            ),
            None => format!(
                "words {:?}, literals {}\n",
                case.words,
                hex_of(&case.literals)
            ),
        },
        Case::Read(case) => format!(
            "room {} words, {} literals; text {:?}\n",
            case.words.len(),
            case.literals.len(),
            String::from_utf8_lossy(&case.text)
        ),
        Case::Write(case) => format!(
            "room {} bytes; words {:?}, literals {}\n",
            case.text.len(),
            case.words,
            hex_of(&case.literals)
        ),
        Case::Text(case) => format!("{case:?}\n"),
    }
}
