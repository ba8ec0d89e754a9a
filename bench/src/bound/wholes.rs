//! Whole calls: the clearing, the dearest single visit, the example, and refusals.

use super::{work, Call, Case};
use crate::grammars::{
    blocks, deep, example, expressions, lift, repeat, smallest, Work, LONGEST, MOST_BLOCKS,
};
use reader_tests::exported::WORK_WORDS;
use reader_tests::random::draft::Draft;
use reader_tests::reference::table::*;

/// Runs that make no visit, and refusals after all checks.
fn clearing(cases: &mut Vec<Case>) {
    for (name, make) in [
        ("one node", smallest as fn() -> Work),
        ("the full mixed table", || {
            blocks(MOST_BLOCKS, MOST_LITERALS)
        }),
    ] {
        let add = |call: Call, what: &str| {
            let name = format!("{name}, {what}");
            Case::new("clearing", &name, 0, call, make()).with_budget(0)
        };
        let mut made = vec![
            add(Call::Check, "table check"),
            add(Call::Bench, "bench run of no visit"),
            add(Call::TypeCheck, "type check"),
            add(Call::Display, "display run of no visit"),
        ];
        let mut long = add(Call::Display, "LONG");
        long.work.message = vec![0; LONGEST + 1];
        let mut short = add(Call::Display, "WORK");
        short.area.truncate(WORK_WORDS - 1);
        made.extend([long, short]);
        cases.append(&mut made);
    }
}

/// Start rules that return nothing, and four leaves.
fn returned(cases: &mut Vec<Case>) {
    for (name, kind, given) in [
        ("Bools", BOOL, BOOL_TYPE),
        ("Integers", INTEGER, INTEGER_TYPE),
        ("Texts", TEXT, TEXT_TYPE),
    ] {
        for count in [0, 4] {
            for budget in [0, 1] {
                let mut draft = Draft::default();
                let body = draft.node(EMPTY, &[]);
                let values = [0; 4].map(|_| draft.node(kind, &[]));
                draft.nodes.truncate(1 + count);
                draft.rule(body, &[], &values.map(|node| (node, given))[..count]);
                let made = work(draft, Vec::new());
                let case = Case::new("start", name, count, Call::Display, made);
                cases.push(case.with_budget(budget));
            }
        }
    }
}

/// x = 'a'*, and one constraint of as many comparisons of x with itself as the table has room for.
fn comparisons(length: usize) -> Work {
    let mut draft = Draft::default();
    let byte = draft.node(TERMINAL, &[b'a' as u16]);
    let bytes = draft.node(REPEAT, &[byte]);
    let bind = draft.node(BIND, &[0, bytes]);
    let compared = |draft: &mut Draft| {
        let texts = [draft.node(SLOT, &[0]), draft.node(SLOT, &[0])];
        draft.node(EQUAL, &texts)
    };
    let mut whole = compared(&mut draft);
    while draft.nodes.len() + 6 <= MOST_NODES {
        let next = compared(&mut draft);
        whole = draft.node(AND, &[whole, next]);
    }
    let guard = draft.node(CONSTRAINT, &[whole]);
    let body = draft.node(SEQUENCE, &[bind, guard]);
    draft.rule(body, &[], &[]);
    work(draft, vec![b'a'; length])
}

/// The constraint's visit is the last: the run less the same run with one visit less.
fn dearest(cases: &mut Vec<Case>) {
    for length in [0, 40, LONGEST] {
        let visits = length as u32 + 5;
        for budget in [visits - 1, visits] {
            let made = comparisons(length);
            let case = Case::new("dearest", "comparisons", length, Call::Display, made);
            cases.push(case.with_budget(budget));
        }
    }
}

/// The example and runs of bench/run, and the same without a visit.
fn runs(cases: &mut Vec<Case>) {
    let mut both = |group: &'static str, name: &str, make: &dyn Fn() -> Work| {
        for budget in [u32::MAX, 0] {
            let case = Case::new(group, name, 0, Call::Display, make());
            cases.push(case.with_budget(budget));
        }
    };
    both("example", "the example's message of 16 bytes", &example);
    both("example", "a message of 30 bytes", &lift);
    both("run", "(b) ('a' 'b' 'c')*, 65,535 bytes", &|| {
        repeat(LONGEST)
    });
    both("run", "(c) calls 255 deep, over and over", &|| {
        deep(256, 4_200)
    });
    both(
        "run",
        "(d) constraints of 52 expression nodes",
        &expressions,
    );
}

pub fn cases() -> Vec<Case> {
    let mut cases = Vec::new();
    clearing(&mut cases);
    returned(&mut cases);
    dearest(&mut cases);
    runs(&mut cases);
    cases
}
