//! The three contenders, and the time each takes for the same job.

use crate::fast::Fast;
use reader_tests::exported::WORK_WORDS;
use reader_tests::library::Library;
use reader_tests::subject::{Reference, Subject};
use std::time::{Duration, Instant};

/// Each clears W words, as document 01 asks of a run.
pub const INDEPENDENT: Reference = Reference {
    work_words: WORK_WORDS,
};

pub const ROUNDS: usize = 61;

/// Short, so that many a sample passes without another process on the core.
const SAMPLE: Duration = Duration::from_millis(2);

/// Nanoseconds of each.
#[derive(Clone, Copy)]
pub struct Times {
    pub proved: f64,
    pub independent: f64,
    /// Nothing where the fast contender has no part: it neither reads nor writes listings.
    pub fast: Option<f64>,
}

impl Times {
    pub fn each(&self, count: f64) -> Times {
        Times {
            proved: self.proved / count,
            independent: self.independent / count,
            fast: self.fast.map(|fast| fast / count),
        }
    }

    pub fn less(&self, other: Times) -> Times {
        Times {
            proved: self.proved - other.proved,
            independent: self.independent - other.independent,
            fast: self.fast.zip(other.fast).map(|(fast, other)| fast - other),
        }
    }
}

/// What all three do.
pub fn measure(job: &mut dyn FnMut(&dyn Subject)) -> Times {
    let [proved, independent, fast] = least_times(job, [&Library, &INDEPENDENT, &Fast]);
    Times {
        proved,
        independent,
        fast: Some(fast),
    }
}

/// What the fast contender doesn't do.
pub fn measure_listing(job: &mut dyn FnMut(&dyn Subject)) -> Times {
    let [proved, independent] = least_times(job, [&Library, &INDEPENDENT]);
    Times {
        proved,
        independent,
        fast: None,
    }
}

/// The contenders take turns; of each the least time counts, since whatever else
/// the machine does can only add to it.
fn least_times<const N: usize>(
    job: &mut dyn FnMut(&dyn Subject),
    contenders: [&dyn Subject; N],
) -> [f64; N] {
    let goes = contenders.map(|contender| goes_of_a_sample(job, contender));
    let mut least = [f64::INFINITY; N];
    for _ in 0..ROUNDS {
        for (index, contender) in contenders.into_iter().enumerate() {
            let time = sample(job, contender, goes[index]);
            least[index] = least[index].min(time);
        }
    }
    least
}

/// Nanoseconds a go.
fn sample(job: &mut dyn FnMut(&dyn Subject), contender: &dyn Subject, goes: u32) -> f64 {
    let begun = Instant::now();
    for _ in 0..goes {
        job(contender);
    }
    begun.elapsed().as_nanos() as f64 / goes as f64
}

fn goes_of_a_sample(job: &mut dyn FnMut(&dyn Subject), contender: &dyn Subject) -> u32 {
    let mut goes = 1;
    while sample(job, contender, goes) * (goes as f64) < SAMPLE.as_nanos() as f64 {
        goes *= 2;
    }
    goes
}

/// Of one job alone: the least of as many rounds.
pub fn least_time(job: &mut dyn FnMut()) -> f64 {
    least_times(&mut |_| job(), [&Library])[0]
}
