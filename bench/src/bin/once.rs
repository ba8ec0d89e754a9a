//! Does one thing once, for programs that count (bench/counts, bench/instructions, callgrind).
//! Arguments: `none`, `check` or `type_check` and how many rules of 16 nodes; or a contender (`run` is the proved reader, `rust`, `fast`), the letter of a run or
//! `example`, and the budget, if it isn't the greatest. Contender `still` does all but the call.

use reader_bench::contenders::INDEPENDENT;
use reader_bench::fast::Fast;
use reader_bench::grammars::{blocks, example, measured_runs, Work};
use reader_tests::exported::WORK_WORDS;
use reader_tests::library::Library;
use reader_tests::subject::{Record, Subject};
use std::hint::black_box;

fn main() {
    let given: Vec<String> = std::env::args().collect();
    let budget = given.get(3).map_or(u32::MAX, |text| number(text));
    match given[1].as_str() {
        "run" => run(Some(&Library), &given[2], budget),
        "rust" => run(Some(&INDEPENDENT), &given[2], budget),
        "fast" => run(Some(&Fast), &given[2], budget),
        "still" => run(None, &given[2], budget),
        what => check(what, number(&given[2]) as usize),
    }
}

fn number(text: &str) -> u32 {
    text.parse().expect("a number")
}

/// Prints where the words lie and how many they are.
fn check(what: &str, rules: usize) {
    let Work {
        words, literals, ..
    } = blocks(rules, 5);
    println!("{} {}", words.as_ptr() as usize, words.len());
    match what {
        "check" => drop(black_box(Library.check(&words, &literals))),
        "type_check" => drop(black_box(Library.type_check(&words, &literals))),
        _ => {}
    }
}

fn work(letter: &str) -> Work {
    if letter == "example" {
        return example();
    }
    let mut runs = measured_runs().into_iter();
    let found = runs.find(|(name, _)| name[1..].starts_with(letter));
    found.expect("a letter from a to e").1
}

/// Prints number and visits.
fn run(contender: Option<&dyn Subject>, letter: &str, budget: u32) {
    let Work {
        words,
        literals,
        message,
    } = work(letter);
    let area = &mut vec![0; WORK_WORDS];
    let record = match black_box(contender) {
        Some(contender) => contender.run(true, &words, &literals, &message, budget, area),
        None => Record::refusal(0, 0),
    };
    println!("{} {}", record.number, record.visits);
}
