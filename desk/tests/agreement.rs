//! The advice agrees with the proved verdict, and judges rule by rule as the
//! independent implementation does, over random tables.

use reader_desk::judgement::failure;
use reader_desk::page::Page;
use reader_desk::verdict::{of_table, Verdict};
use reader_desk::{advice, field, uses};
use reader_tests::numbers::{DONE, FIELD, START, TYPE, USE};
use reader_tests::random::damage::{damaged, slices_of, Slices};
use reader_tests::random::prng::Random;
use reader_tests::random::tables;
use reader_tests::reference::check::size_is_right;
use reader_tests::reference::table::Table;
use reader_tests::reference::types::rule_passes;

const CASES: u64 = 6_000;

/// A table from a seed, of sound form or hurt; most makers slip, so that there
/// are rules enough that fail.
fn slices(seed: u64, hurt: bool) -> Slices {
    let random = &mut Random::new(seed);
    let slip = random.pick(&[0, 5, 15, 40, 100]);
    let draft = tables::table(random, slip);
    match hurt {
        true => damaged(random, &draft),
        false => slices_of(&draft),
    }
}

fn page(slices: &Slices) -> Page<'_> {
    let table = Table {
        words: &slices.words,
        literals: &slices.literals,
    };
    Page { table, before: 0 }
}

#[test]
fn a_node_fails_exactly_in_the_rules_that_fail() {
    let (mut failing, mut passing) = (0, 0);
    for seed in 0..CASES {
        let slices = slices(seed, false);
        let table = page(&slices).table;
        for rule in 0..table.rules() {
            let passes = rule_passes(&table, rule);
            let found = failure(&table, rule);
            assert_eq!(found.is_none(), passes, "seed {seed}, rule {rule}");
            failing += usize::from(!passes);
            passing += usize::from(passes);
        }
    }
    assert!(failing > 1_000 && passing > 1_000, "{failing}, {passing}");
}

#[test]
fn the_first_rule_that_fails_is_the_place_of_the_verdict() {
    let mut seen = [0; 6];
    for seed in 0..CASES {
        let slices = slices(seed, false);
        let table = page(&slices).table;
        let verdict = of_table(&table);
        let first = (0..table.rules()).find(|&rule| failure(&table, rule).is_some());
        match verdict.number {
            START => assert!(table.inherited(0) > 0, "seed {seed}"),
            TYPE => assert_eq!(first, Some(verdict.place as usize), "seed {seed}"),
            number => assert_eq!((number, first), (DONE, None), "seed {seed}"),
        }
        seen[verdict.number as usize] += 1;
    }
    assert!(seen[TYPE as usize] > 1_000 && seen[0] > 1_000, "{seen:?}");
}

/// Every refusal has advice, and of the words or nodes before its place the
/// advice would say nothing.
#[test]
fn every_refusal_has_advice_and_what_stands_before_it_has_none() {
    let mut seen = [0; 6];
    for seed in 0..CASES {
        let slices = slices(seed, true);
        if !size_is_right(&slices.words, &slices.literals) {
            continue;
        }
        let page = page(&slices);
        let verdict = of_table(&page.table);
        let said = advice::of(&page, verdict);
        assert_eq!(said.is_none(), verdict.passed(), "seed {seed}");
        assert!(nothing_before(&page, verdict), "seed {seed}");
        seen[verdict.number as usize] += 1;
    }
    for number in [DONE, FIELD, USE, START, TYPE] {
        assert!(seen[number as usize] > 50, "{seen:?}");
    }
}

fn nothing_before(page: &Page, verdict: Verdict) -> bool {
    let place = verdict.place as usize;
    let no_field = |words| (0..words).all(|word| field::advice(page, word).is_none());
    let no_use = |nodes| (0..nodes).all(|node| uses::advice(page, node).is_none());
    match verdict.number {
        FIELD => no_field(place),
        USE => no_field(page.table.words.len()) && no_use(place),
        _ => no_field(page.table.words.len()) && no_use(page.table.nodes()),
    }
}

/// Where the advice sees nothing of what a verdict says, it says nothing.
#[test]
fn a_verdict_that_is_not_so_has_no_advice() {
    let mut tried = 0;
    for seed in 0..1_000 {
        let slices = slices(seed, false);
        let page = page(&slices);
        if !of_table(&page.table).passed() {
            continue;
        }
        for number in [FIELD, USE, START, TYPE] {
            for place in [0, 3, 65_535] {
                let verdict = Verdict { number, place };
                assert_eq!(advice::of(&page, verdict), None, "seed {seed}, {verdict:?}");
            }
        }
        tried += 1;
    }
    assert!(tried > 100, "{tried}");
}
