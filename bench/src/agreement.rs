//! The fast contender and the proved reader beside the independent implementation: a time is worth nothing if the answer is another. What tests/ compares already
//! (vectors, kinds, random cases) is asked of the fast contender alone.

use crate::contenders::INDEPENDENT;
use crate::entangled;
use crate::fast::Fast;
use crate::grammars::{measured_runs, Work};
use reader_tests::compare::coverage::Coverage;
use reader_tests::compare::one::compare_case;
use reader_tests::compare::shrink::{shown, shrink, smaller_case};
use reader_tests::compare::{compare_kinds, whole};
use reader_tests::exported::WORK_WORDS;
use reader_tests::library::Library;
use reader_tests::random::cases::{run_case, Case};
use reader_tests::random::draft::Draft;
use reader_tests::random::prng::Random;
use reader_tests::reference::table::{CHOICE, SEQUENCE};
use reader_tests::subject::Subject;
use reader_tests::vectors::judged;

/// Case file and stored file; listings are not the fast contender's.
const VECTORS: [(&str, &str, &str); 3] = [
    (
        "table",
        include_str!("../../tests/vectors/table.cases"),
        include_str!("../../tests/vectors/table.stored"),
    ),
    (
        "typing",
        include_str!("../../tests/vectors/typing.cases"),
        include_str!("../../tests/vectors/typing.stored"),
    ),
    (
        "runs",
        include_str!("../../tests/vectors/runs.cases"),
        include_str!("../../tests/vectors/runs.stored"),
    ),
];

/// Prints what was tried, or tells the first difference.
pub fn all(cases: u64, first_seed: u64) -> Result<(), String> {
    for (name, items, stored) in VECTORS {
        let count = judged(items, stored, &Fast).map_err(|told| format!("{name}: {told}"))?;
        println!("vectors of {name}: {count} as stored");
    }
    let count = compare_kinds(&INDEPENDENT, &Fast, 0..=u16::MAX)?;
    println!("{count} words as kinds: the same");
    long_runs()?;
    chains()?;
    entangled_cases(cases, first_seed)?;
    random_cases(cases, first_seed)
}

/// What is measured, and a slot that is written again and again: messages and repeats that are longer than random ones.
fn long_runs() -> Result<(), String> {
    let mut works = Vec::from(measured_runs());
    works.push((
        "counted in vain",
        of_draft(entangled::counted_in_vain(), b""),
    ));
    for (name, work) in works {
        for budget in [0, 1, 1_000, 60_000, u32::MAX] {
            same_run(&work, budget).map_err(|told| format!("{name}: {told}"))?;
        }
        println!("{name}: the same");
    }
    Ok(())
}

/// Every budget, at and over the greatest depth.
fn chains() -> Result<(), String> {
    for kind in [SEQUENCE, CHOICE] {
        for (length, byte) in (253..=257).flat_map(|length| [(length, b'a'), (length, b'b')]) {
            let work = of_draft(entangled::chain(kind, length), &[byte; 300]);
            for budget in 0..=520 {
                same_run(&work, budget).map_err(|told| format!("{length} of {kind}: {told}"))?;
            }
        }
    }
    println!("chains of 253 to 257, budgets 0 to 520: the same");
    Ok(())
}

fn of_draft(draft: Draft, message: &[u8]) -> Work {
    Work {
        words: draft.words(),
        literals: draft.literals,
        message: message.to_vec(),
    }
}

fn same_run(work: &Work, budget: u32) -> Result<(), String> {
    let [independent, proved, fast] =
        [&INDEPENDENT as &dyn Subject, &Library, &Fast].map(|subject| {
            let mut area = vec![u32::MAX; WORK_WORDS + 1];
            let (words, literals) = (&work.words, &work.literals);
            let record = subject.run(true, words, literals, &work.message, budget, &mut area);
            (record, area)
        });
    if proved == independent && fast == independent {
        return Ok(());
    }
    let records = [independent.0, proved.0, fast.0];
    Err(format!(
        "budget {budget}, independent, proved and fast: {records:?}"
    ))
}

fn entangled_cases(cases: u64, first_seed: u64) -> Result<(), String> {
    let mut coverage = Coverage::default();
    for seed in first_seed..first_seed + cases {
        let case = Case::Run(entangled::case(&mut Random::new(seed), WORK_WORDS));
        compare_case(&INDEPENDENT, &Library, &case, &mut Coverage::default())
            .map_err(|told| format!("seed {seed}, the proved reader: {told}"))?;
        compare_case(&INDEPENDENT, &Fast, &case, &mut coverage)
            .map_err(|told| difference(seed, case, told))?;
    }
    println!("{cases} cases that write and fail a lot, from seed {first_seed} on: the same");
    let runs = coverage.counts().into_iter();
    let came: Vec<_> = runs
        .filter(|(name, count)| name.starts_with("bench run:") && *count > 0)
        .collect();
    for (name, count) in &came {
        println!("{name}: {count}");
    }
    // DONE, NOMATCH and BUDGET at least
    if came.len() < 3 {
        return Err("cases that write and fail a lot: an answer is never reached".to_string());
    }
    Ok(())
}

fn random_cases(cases: u64, first_seed: u64) -> Result<(), String> {
    let mut coverage = Coverage::default();
    for seed in first_seed..first_seed + cases {
        let random = &mut Random::new(seed);
        let hurt = random.chance(200);
        let case = Case::Run(run_case(random, hurt, WORK_WORDS));
        compare_case(&INDEPENDENT, &Fast, &case, &mut coverage)
            .map_err(|told| difference(seed, case, told))?;
    }
    println!("{cases} random cases from seed {first_seed} on: the same");
    for (name, count) in coverage.counts().iter().filter(|(name, _)| is_ours(name)) {
        println!("{name}: {count}");
    }
    let missing = coverage.missing().into_iter();
    let missing: Vec<String> = missing.filter(|name| is_ours(name)).collect();
    whole(false, &missing, &coverage.strange())
}

/// Listings and parts that don't fit aren't asked for.
fn is_ours(name: &str) -> bool {
    !["read:", "write:", "part"]
        .iter()
        .any(|other| name.starts_with(other))
}

/// The case, as small as it still differs.
fn difference(seed: u64, case: Case, told: String) -> String {
    let differs = |case: &Case| {
        let unseen = &mut Coverage::default();
        compare_case(&INDEPENDENT, &Fast, case, unseen).err()
    };
    let small = shrink(case, |case| {
        smaller_case(case, &|case| differs(case).is_some())
    });
    let told_of_small = differs(&small).unwrap_or_default();
    let small = shown(&small);
    format!("seed {seed}: {told}\nshrunk: {told_of_small}\n{small}")
}
