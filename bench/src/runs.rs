//! The time of a run, and of the same run that may make no visit.

use crate::contenders::{measure, Times};
use crate::grammars::Work;
use reader_tests::exported::WORK_WORDS;
use reader_tests::numbers::DONE;
use reader_tests::reference::run::{observe, Lent};
use reader_tests::reference::table::BOOL;
use std::hint::black_box;

pub struct RunTimes {
    pub visits: f64,
    /// Expression nodes evaluated.
    pub expressions: f64,
    pub whole: Times,
    /// Checks and clearing alone: the budget is 0.
    pub without_visits: Times,
}

impl RunTimes {
    pub fn a_visit(&self) -> Times {
        self.whole.less(self.without_visits).each(self.visits)
    }
}

/// A display run, as in a shaft.
pub fn run_times(work: &Work) -> RunTimes {
    let lent = Lent {
        display: true,
        words: &work.words,
        literals: &work.literals,
        message: &work.message,
        budget: u32::MAX,
    };
    let (record, kinds) = observe(&lent, &mut [], 0);
    assert_eq!(record.number, DONE, "every grammar measured is done");
    RunTimes {
        visits: record.visits as f64,
        expressions: kinds[BOOL as usize..].iter().sum::<u64>() as f64,
        whole: time_with_budget(work, u32::MAX),
        without_visits: time_with_budget(work, 0),
    }
}

pub fn time_with_budget(work: &Work, budget: u32) -> Times {
    let mut area = vec![0; WORK_WORDS];
    measure(&mut |contender| {
        let record = contender.run(
            true,
            black_box(&work.words),
            &work.literals,
            &work.message,
            budget,
            &mut area,
        );
        black_box(record);
    })
}
