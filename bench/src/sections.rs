//! What is measured, a table a section.

use crate::contenders::{measure, measure_listing, Times};
use crate::grammars::*;
use crate::lpeg;
use crate::print::{heading, heading_of_two, line};
use crate::runs::{run_times, time_with_budget};
use reader_tests::reference::listing::listing_of;
use reader_tests::reference::table::{Table, MOST_LITERALS};
use std::hint::black_box;

const MICRO: f64 = 1_000.0;

pub fn runs() {
    let works = measured_runs();
    let times: Vec<_> = works.iter().map(|(_, work)| run_times(work)).collect();
    heading("A visit", &["visits", "expressions"], "ns a visit");
    for ((name, _), run) in works.iter().zip(&times) {
        line(name, &[run.visits, run.expressions], run.a_visit());
    }
    heading("The whole display run", &["visits"], "µs");
    for ((name, _), run) in works.iter().zip(&times) {
        line(name, &[run.visits], run.whole.each(MICRO));
        line(
            "    without the visits",
            &[0.0],
            run.without_visits.each(MICRO),
        );
    }
}

/// W's clearing is what a run that makes no visit takes over the type check of its table.
pub fn clearing() {
    let work = smallest();
    let none = time_with_budget(&work, 0);
    let check = type_check_time(&work);
    heading("A table of one node", &["visits"], "ns");
    line("type check", &[0.0], check);
    line("run without a visit", &[0.0], none);
    line("run", &[1.0], time_with_budget(&work, 1));
    line(
        "clearing of W: the second less the first",
        &[0.0],
        none.less(check),
    );
}

fn check_time(work: &Work) -> Times {
    measure(&mut |contender| {
        black_box(contender.check(black_box(&work.words), &work.literals));
    })
}

fn type_check_time(work: &Work) -> Times {
    measure(&mut |contender| {
        black_box(contender.type_check(black_box(&work.words), &work.literals));
    })
}

pub fn checks() {
    let figures = ["rules", "nodes"];
    heading("Checks as the table grows", &figures, "µs");
    for rules in [8, 16, 32, MOST_BLOCKS] {
        let work = blocks(rules, MOST_LITERALS);
        let size = [rules as f64, 16.0 * rules as f64];
        line("table check", &size, check_time(&work).each(MICRO));
        line("type check", &size, type_check_time(&work).each(MICRO));
    }
}

pub fn listings() {
    let work = blocks(MOST_BLOCKS, MOST_LITERALS);
    let listing = listing_of(&Table {
        words: &work.words,
        literals: &work.literals,
    });
    let (mut words, mut literals) = (work.words.clone(), work.literals.clone());
    let mut text = vec![0; listing.len()];
    let read = measure_listing(&mut |contender| {
        let answer = contender.read(black_box(listing.as_bytes()), &mut words, &mut literals);
        black_box(answer);
    });
    let write = measure_listing(&mut |contender| {
        let answer = contender.write(black_box(&work.words), &work.literals, &mut text);
        black_box(answer);
    });
    heading_of_two("A full listing: R 64, K 1,024, L 4,096", &["bytes"], "µs");
    line("reading", &[listing.len() as f64], read.each(MICRO));
    line("writing", &[listing.len() as f64], write.each(MICRO));
}

pub fn growth() {
    let lengths = [1_024, 2_048, 4_096, 8_192, 16_384, 32_768, LONGEST];
    heading(
        "As the message grows: (b)",
        &["bytes", "visits"],
        "ns a visit",
    );
    for length in lengths {
        let run = run_times(&repeat(length));
        line("", &[length as f64, run.visits], run.a_visit());
    }
    heading(
        "As the calls get deeper: (c)",
        &["depth", "visits"],
        "ns a visit",
    );
    for depth in [32, 64, 128, 256] {
        let run = run_times(&deep(depth, 4_200));
        line("", &[depth as f64, run.visits], run.a_visit());
    }
}

/// LPeg has no visits, so these are told by the byte.
pub fn plain_grammars() {
    let bytes = LONGEST as f64;
    let works = [("repeat", repeat(LONGEST)), ("choices", choices(LONGEST))];
    let lpeg = lpeg::figures();
    heading("Plain grammars (b) and (e)", &[], "ns a byte");
    for (name, work) in &works {
        let times = time_with_budget(work, u32::MAX).each(bytes);
        line(name, &[], times);
        let figures = lpeg.iter().flatten();
        for (_, time) in figures.filter(|(known, _)| known == name) {
            let ratio = times.proved / time;
            let name = format!("{name} in LPeg");
            println!("{name:<44} {time:>14.2}; proved to that {ratio:.2}");
        }
    }
    if let Err(why) = lpeg {
        println!("{why}");
    }
}
