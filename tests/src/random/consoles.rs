//! Console inputs, right, hurt, and just at or over the greatest length.

use super::cases::{RunCase, AFFORDABLE};
use super::prng::Random;
use super::{cases, listings};
use crate::reference::check::size_is_right;
use crate::reference::console::{asked, MOST_INPUT};
use crate::reference::listing::{hex_of, listing_of};
use crate::reference::table::Table;

pub fn input_text(display: bool, budget: u32, message: &[u8], listing: &str) -> Vec<u8> {
    let mode = if display { "display" } else { "bench" };
    let message = hex_of(message);
    format!("mode={mode}\nbudget={budget}\nmessage={message}\n{listing}").into_bytes()
}

/// The run a console input asks for, if its lines are right.
pub fn run_case_of(input: &[u8], work_words: usize) -> Option<RunCase> {
    if input.len() > MOST_INPUT {
        return None;
    }
    let asked = asked(input).ok()?;
    Some(RunCase {
        display: asked.display,
        words: asked.words,
        literals: asked.literals,
        message: asked.message,
        budget: asked.budget,
        work: vec![0; work_words],
    })
}

/// A run as console input, if its table passes SIZE.
pub fn input_of(case: &RunCase) -> Option<Vec<u8>> {
    if !size_is_right(&case.words, &case.literals) {
        return None;
    }
    let listing = listing_of(&Table {
        words: &case.words,
        literals: &case.literals,
    });
    Some(input_text(
        case.display,
        case.budget,
        &case.message,
        &listing,
    ))
}

/// One input from one seed: most ask for a real run, the others are hurt in the
/// table, in a line, or in their length.
pub fn input(seed: u64) -> Vec<u8> {
    let random = &mut Random::new(seed);
    let way = random.weighed(&[600, 170, 180, 50]);
    let right = with_right_lines(random, way == 1);
    let mut input = right.clone();
    match way {
        2 => listings::hurt(random, &mut input),
        3 => input = long(random, &right),
        _ => {}
    }
    match run_case_of(&input, 0) {
        Some(case) if !ends_soon(&case) => right,
        _ => input,
    }
}

fn with_right_lines(random: &mut Random, hurt: bool) -> Vec<u8> {
    loop {
        let mut case = cases::run_case(random, hurt, 0);
        case.message.truncate(2_000);
        if !ends_soon(&case) {
            case.budget = AFFORDABLE;
        }
        // a table hurt in its sizes has no listing
        if let Some(input) = input_of(&case) {
            return input;
        }
    }
}

/// At or over the greatest length.
fn long(random: &mut Random, right: &[u8]) -> Vec<u8> {
    let mut input = right.to_vec();
    match random.weighed(&[3, 3, 2, 2]) {
        0 => return padded(right, MOST_INPUT),
        1 => return padded(right, MOST_INPUT + 1),
        2 => input.resize(MOST_INPUT, b'x'),
        _ => input.resize(MOST_INPUT + 1 + random.below(3), 10),
    }
    input
}

/// The same input with a longer message, to have just the wanted length: an odd
/// byte goes into the budget.
fn padded(right: &[u8], wanted: usize) -> Vec<u8> {
    let lines: Vec<&[u8]> = right.splitn(4, |&byte| byte == 10).collect();
    let [mode, budget, message, rest] = lines[..] else {
        return right.to_vec();
    };
    let budget = [budget, b"1"].concat();
    for budget in [lines[1], &budget] {
        let length = mode.len() + budget.len() + message.len() + rest.len() + 3;
        let Some(more) = wanted.checked_sub(length) else {
            continue;
        };
        if more % 2 == 0 {
            let message = [message, &b"31".repeat(more / 2)].concat();
            return [mode, budget, &message, rest].join(&10);
        }
    }
    right.to_vec()
}

/// Whether a run stays within what a comparison can afford.
fn ends_soon(case: &RunCase) -> bool {
    case.budget <= AFFORDABLE || cases::probe(&case.words, &case.literals, &case.message).is_some()
}
