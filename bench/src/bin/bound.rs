//! The calls that bench/bound counts. Arguments: a function (`Check`, `TypeCheck`, `Bench`, `Display`) and how many random cases beside those that are made for a part: each case
//! of that function is called once and told in a line. Or `times`: of all the latter the function and the least time in nanoseconds, or - where none is taken.

use reader_bench::bound::count::Counted;
use reader_bench::bound::{made_for_a_part, strays, Call, Case};
use reader_bench::contenders::least_time;
use reader_tests::arguments::asked;
use reader_tests::exported::WORK_WORDS;
use reader_tests::numbers::{is_run, DONE};
use reader_tests::reference::check::check;
use reader_tests::reference::run::{observe, Lent};
use std::hint::black_box;

fn main() {
    let what = std::env::args().nth(1).expect("a function, or times");
    let mut cases = made_for_a_part();
    cases.extend((1..=asked(1, 0)).map(strays::case));
    for case in &mut cases {
        if what == "times" {
            println!("{}\t{}", call_of(case), time_of(case));
        } else if what == call_of(case) {
            let answer = case.make();
            println!("{}", told(case, answer));
        }
    }
}

/// Of those that are long enough, or that are told by themselves.
fn time_of(case: &mut Case) -> String {
    let timed = [
        "check", "clearing", "start", "round", "dearest", "example", "run",
    ];
    if !timed.contains(&case.group) {
        return "-".to_string();
    }
    let time = least_time(&mut || {
        black_box(case.make());
    });
    format!("{time:.2}")
}

fn call_of(case: &Case) -> String {
    format!("{:?}", case.call)
}

/// Group, name, size, call, R, K, record words, message, budget, number, visits; visits of each parsing kind from 1 on; of each parsing node kind and load; the load of the start rule.
fn told(case: &Case, (number, _, visits): (u32, u32, u32)) -> String {
    let work = &case.work;
    let head = |place: usize| work.words.get(place).copied().unwrap_or(0).to_string();
    let (loads, start) = if is_run(number) {
        loads(case)
    } else {
        Default::default()
    };
    let told = [
        case.group.to_string(),
        case.name.clone(),
        case.size.to_string(),
        call_of(case),
        head(0),
        head(1),
        work.words.len().saturating_sub(3).to_string(),
        work.message.len().to_string(),
        case.budget.to_string(),
        number.to_string(),
        visits.to_string(),
        kinds(case),
        loads,
        start,
    ];
    told.join("\t")
}

/// For a table that passes the table check.
fn loads(case: &Case) -> (String, String) {
    if check(&case.work.words, &case.work.literals).0 != DONE {
        return Default::default();
    }
    let counted = Counted::of(&case.work);
    let visits = counted.visits();
    let visits: Vec<String> = visits
        .iter()
        .map(|(kind, load)| format!("{kind}:{}", load.told()))
        .collect();
    (visits.join(","), counted.start().told())
}

/// By the independent implementation, which counts them.
fn kinds(case: &Case) -> String {
    if !matches!(case.call, Call::Bench | Call::Display) || case.area.len() < WORK_WORDS {
        return String::new();
    }
    let lent = Lent {
        display: case.call == Call::Display,
        words: &case.work.words,
        literals: &case.work.literals,
        message: &case.work.message,
        budget: case.budget,
    };
    let (_, kinds) = observe(&lent, &mut [], 0);
    let parsing: Vec<String> = kinds[1..=10].iter().map(u64::to_string).collect();
    parsing.join(",")
}
