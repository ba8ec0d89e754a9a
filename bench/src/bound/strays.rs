//! Random tables and messages, on which the bound is tried.

use super::{Call, Case};
use crate::grammars::Work;
use reader_tests::exported::WORK_WORDS;
use reader_tests::random::cases::run_case;
use reader_tests::random::prng::Random;

/// One of eight is damaged.
pub fn case(seed: u64) -> Case {
    let random = &mut Random::new(seed);
    let hurt = random.chance(125);
    let made = run_case(random, hurt, WORK_WORDS);
    let lent = Work {
        words: made.words,
        literals: made.literals,
        message: made.message,
    };
    let call = if made.display {
        Call::Display
    } else {
        Call::Bench
    };
    let mut case = Case::new("random", &format!("seed {seed}"), 0, call, lent);
    case.area = made.work;
    case.with_budget(made.budget)
}
