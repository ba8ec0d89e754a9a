//! Visits of each kind: nodes one around the other, so that a table with more levels differs by just those visits; and rounds of a repeat.

use super::values::{chain, LEAVES};
use super::{work, Call, Case};
use crate::grammars::Work;
use reader_tests::random::draft::Draft;
use reader_tests::reference::table::*;

type Inner = fn(&mut Draft) -> u16;
type Around = fn(&mut Draft, u16) -> u16;

struct Nest {
    name: &'static str,
    /// Visits of a level before the next one is due.
    each: u32,
    inner: Inner,
    around: Around,
}

const fn nest(name: &'static str, each: u32, inner: Inner, around: Around) -> Nest {
    Nest {
        name,
        each,
        inner,
        around,
    }
}

fn empty(draft: &mut Draft) -> u16 {
    draft.node(EMPTY, &[])
}

/// Every message here is of this byte.
const STANDS: u16 = b'a' as u16;

fn stands(draft: &mut Draft) -> u16 {
    draft.node(TERMINAL, &[STANDS])
}

fn fails(draft: &mut Draft) -> u16 {
    draft.node(TERMINAL, &[b'x' as u16])
}

fn constraint(draft: &mut Draft, truth: u16) -> u16 {
    let value = draft.node(BOOL, &[truth]);
    draft.node(CONSTRAINT, &[value])
}

fn holds(draft: &mut Draft) -> u16 {
    constraint(draft, 1)
}

fn refuses(draft: &mut Draft) -> u16 {
    constraint(draft, 0)
}

fn update(draft: &mut Draft, slot: u16, kind: u16) -> u16 {
    let value = draft.node(kind, &[]);
    draft.node(UPDATE, &[slot, value])
}

fn update_bool(draft: &mut Draft) -> u16 {
    update(draft, 15, BOOL)
}

fn update_integer(draft: &mut Draft) -> u16 {
    update(draft, 14, INTEGER)
}

fn update_text(draft: &mut Draft) -> u16 {
    update(draft, 13, TEXT)
}

fn not(draft: &mut Draft, part: u16) -> u16 {
    draft.node(NOT, &[part])
}

fn bind(draft: &mut Draft, part: u16) -> u16 {
    draft.node(BIND, &[15, part])
}

fn before(draft: &mut Draft, kind: u16, first: Inner, part: u16) -> u16 {
    let first = first(draft);
    draft.node(kind, &[first, part])
}

fn after(draft: &mut Draft, kind: u16, part: u16, second: Inner) -> u16 {
    let second = second(draft);
    draft.node(kind, &[part, second])
}

/// A rule whose body is the part, and a call of it. Leaves are its arguments and what it returns.
fn call(draft: &mut Draft, part: u16, kind: u16, inherited: usize, returned: usize) -> u16 {
    let given = [BOOL_TYPE, INTEGER_TYPE, TEXT_TYPE][usize::from(kind - BOOL)];
    let mut fields = [draft.rules.len() as u16, 0, 0, 0, 0, 0, 0, 0, 0];
    for field in &mut fields[1..1 + inherited] {
        *field = draft.node(kind, &[]);
    }
    for (field, slot) in fields[5..5 + returned].iter_mut().zip(12..) {
        *field = slot;
    }
    let back: Vec<(u16, u16)> = (0..returned)
        .map(|_| (draft.node(kind, &[]), given))
        .collect();
    draft.rule(part, &[given; 4][..inherited], &back);
    draft.node(CALL, &fields)
}

/// Slots 0 to 3 hold an Integer, 4 true and 5 false, before every nest.
const SET: [(u16, u16, [u16; 2]); 6] = [
    (0, INTEGER, [0, 1]),
    (1, INTEGER, [0, 2]),
    (2, INTEGER, [0, 3]),
    (3, INTEGER, [0, 4]),
    (4, BOOL, [1, 0]),
    (5, BOOL, [0, 0]),
];

fn constraint_of_slot(draft: &mut Draft, slot: u16) -> u16 {
    let value = draft.node(SLOT, &[slot]);
    draft.node(CONSTRAINT, &[value])
}

/// As `call`, but slots 0 to 3 are its arguments and what it returns.
fn call_by_slots(draft: &mut Draft, part: u16, returned: usize) -> u16 {
    let mut fields = [draft.rules.len() as u16, 0, 0, 0, 0, 0, 0, 0, 0];
    for (slot, field) in fields[1..5].iter_mut().enumerate() {
        *field = draft.node(SLOT, &[slot as u16]);
    }
    for (field, slot) in fields[5..5 + returned].iter_mut().zip(12..) {
        *field = slot;
    }
    let back: Vec<(u16, u16)> = (0..returned as u16)
        .map(|slot| (draft.node(SLOT, &[slot]), INTEGER_TYPE))
        .collect();
    draft.rule(part, &[INTEGER_TYPE; 4], &back);
    draft.node(CALL, &fields)
}

const NESTS: [Nest; 40] = [
    nest("leaf: update by a slot", 2, empty, |d, part| {
        before(d, SEQUENCE, |d| update(d, 14, SLOT), part)
    }),
    nest(
        "leaf: constraint of a slot, matched",
        2,
        empty,
        |d, part| before(d, SEQUENCE, |d| constraint_of_slot(d, 4), part),
    ),
    nest("leaf: constraint of a slot, failed", 2, empty, |d, part| {
        before(d, CHOICE, |d| constraint_of_slot(d, 5), part)
    }),
    nest("call of 4 slots, matched", 1, empty, |d, part| {
        call_by_slots(d, part, 0)
    }),
    nest("call of and for 4 slots, matched", 1, empty, |d, part| {
        call_by_slots(d, part, 4)
    }),
    nest("not", 1, empty, not),
    nest("bind, matched", 1, empty, bind),
    nest("bind, failed", 1, fails, bind),
    nest("choice, first arm matched", 1, empty, |d, part| {
        after(d, CHOICE, part, empty)
    }),
    nest("choice, second arm failed", 2, fails, |d, part| {
        before(d, CHOICE, refuses, part)
    }),
    nest("choice, second arm matched", 2, empty, |d, part| {
        before(d, CHOICE, refuses, part)
    }),
    nest("choice, both fail on the way back", 1, fails, |d, part| {
        after(d, CHOICE, part, fails)
    }),
    nest(
        "choice, second matches on the way back",
        2,
        fails,
        |d, part| {
            let arms = after(d, CHOICE, part, empty);
            not(d, arms)
        },
    ),
    nest("sequence, first part failed", 1, fails, |d, part| {
        after(d, SEQUENCE, part, empty)
    }),
    nest(
        "sequence, second part on the way back",
        1,
        empty,
        |d, part| after(d, SEQUENCE, part, empty),
    ),
    nest("sequence, terminal on the way back", 1, empty, |d, part| {
        after(d, SEQUENCE, part, stands)
    }),
    nest("sequence, second part matched", 2, empty, |d, part| {
        before(d, SEQUENCE, empty, part)
    }),
    nest("sequence, second part failed", 2, fails, |d, part| {
        before(d, SEQUENCE, empty, part)
    }),
    nest("two at once: sequence, matched", 2, empty, |d, part| {
        before(d, SEQUENCE, stands, part)
    }),
    nest("two at once: sequence, then failed", 2, fails, |d, part| {
        before(d, SEQUENCE, stands, part)
    }),
    nest("two at once: choice, matched", 2, empty, |d, part| {
        before(d, CHOICE, fails, part)
    }),
    nest("two at once: choice, then failed", 2, fails, |d, part| {
        before(d, CHOICE, fails, part)
    }),
    nest("not of repeat", 2, fails, |d, part| {
        let rounds = d.node(REPEAT, &[part]);
        not(d, rounds)
    }),
    nest("leaf: constraint, matched", 2, empty, |d, part| {
        before(d, SEQUENCE, holds, part)
    }),
    nest("leaf: constraint, failed", 2, empty, |d, part| {
        before(d, CHOICE, refuses, part)
    }),
    nest("leaf: update by a Bool", 2, empty, |d, part| {
        before(d, SEQUENCE, update_bool, part)
    }),
    nest("leaf: update by an Integer", 2, empty, |d, part| {
        before(d, SEQUENCE, update_integer, part)
    }),
    nest("leaf: update by a Text", 2, empty, |d, part| {
        before(d, SEQUENCE, update_text, part)
    }),
    nest("leaf: empty", 2, empty, |d, part| {
        before(d, SEQUENCE, empty, part)
    }),
    nest("leaf: terminal, failed", 4, empty, |d, part| {
        let first = empty(d);
        let arm = after(d, SEQUENCE, first, fails);
        d.node(CHOICE, &[arm, part])
    }),
    nest("call, matched", 1, empty, |d, part| {
        call(d, part, INTEGER, 0, 0)
    }),
    nest("call, failed", 1, fails, |d, part| {
        call(d, part, INTEGER, 0, 0)
    }),
    nest("call of 4 Bools, matched", 1, empty, |d, part| {
        call(d, part, BOOL, 4, 0)
    }),
    nest("call of 4 Integers, matched", 1, empty, |d, part| {
        call(d, part, INTEGER, 4, 0)
    }),
    nest("call of 4 Texts, matched", 1, empty, |d, part| {
        call(d, part, TEXT, 4, 0)
    }),
    nest("call of 4 Texts, failed", 1, fails, |d, part| {
        call(d, part, TEXT, 4, 0)
    }),
    nest("call for 4 Bools, matched", 1, empty, |d, part| {
        call(d, part, BOOL, 0, 4)
    }),
    nest("call for 4 Integers, matched", 1, empty, |d, part| {
        call(d, part, INTEGER, 0, 4)
    }),
    nest("call for 4 Texts, matched", 1, empty, |d, part| {
        call(d, part, TEXT, 0, 4)
    }),
    nest("call of and for 4 Texts, matched", 1, empty, |d, part| {
        call(d, part, TEXT, 4, 4)
    }),
];

fn levels(nest: &Nest, levels: usize, around: usize) -> Work {
    let mut draft = Draft::default();
    draft.rule(0, &[], &[]);
    let mut body = (nest.inner)(&mut draft);
    for _ in 0..levels {
        body = (nest.around)(&mut draft, body);
    }
    for _ in 0..around {
        body = after(&mut draft, SEQUENCE, body, empty);
    }
    for (slot, kind, fields) in SET {
        let value = draft.node(kind, &fields);
        let set = draft.node(UPDATE, &[slot, value]);
        body = draft.node(SEQUENCE, &[set, body]);
    }
    draft.rules[0][0] = body;
    work(draft, vec![STANDS as u8; 300])
}

pub const FEW: usize = 20;
pub const MANY: usize = 60;
/// Sequences around a nest, so that its levels lie deep.
pub const DEEP: usize = 128;

/// Whole runs with few and many levels, and without a visit; and runs of many levels with budgets for ten and for thirty levels.
fn nests(cases: &mut Vec<Case>, around: usize, group: &'static str) {
    for nest in &NESTS {
        let case = |count: usize, budget: u32| {
            let made = levels(nest, count, around);
            Case::new(group, nest.name, count, Call::Display, made).with_budget(budget)
        };
        let over = (around + 2 * SET.len()) as u32;
        cases.push(case(FEW, u32::MAX));
        cases.push(case(FEW, 0));
        cases.push(case(MANY, u32::MAX));
        cases.push(case(MANY, 0));
        cases.push(case(MANY, over + 10 * nest.each));
        cases.push(case(MANY, over + 30 * nest.each));
    }
}

/// What is repeated. The same stands before the repeat, so that slots are set.
const ROUNDS: [(&str, Inner); 16] = [
    ("empty", empty),
    ("terminal", stands),
    ("constraint", holds),
    ("update by a Bool", update_bool),
    ("update by an Integer", update_integer),
    ("update by a Text", update_text),
    ("not of not of empty", |d| {
        let inner = empty(d);
        let inner = not(d, inner);
        not(d, inner)
    }),
    ("bind of empty", |d| {
        let part = empty(d);
        bind(d, part)
    }),
    ("sequence of empties", |d| {
        let second = empty(d);
        before(d, SEQUENCE, empty, second)
    }),
    ("choice of a constraint that fails and empty", |d| {
        let second = empty(d);
        before(d, CHOICE, refuses, second)
    }),
    ("call of empty", |d| {
        let body = empty(d);
        call(d, body, INTEGER, 0, 0)
    }),
    ("call of empty, of and for 4 Texts", |d| {
        let body = empty(d);
        call(d, body, TEXT, 4, 4)
    }),
    ("constraint of 14 nots", |d| operators(d, LOGIC_NOT, 1, 14)),
    ("constraint of 14 ands", |d| operators(d, AND, 1, 14)),
    ("constraint of 14 adds", |d| operators(d, ADD, 4, 14)),
    ("constraint of 100 ands", |d| operators(d, AND, 1, 100)),
];

/// A constraint that matches: -15 is not greater than -1.
fn operators(draft: &mut Draft, kind: u16, leaf: usize, count: usize) -> u16 {
    let whole = chain(draft, kind, &LEAVES[leaf], true, count);
    let whole = match kind {
        ADD => draft.node(LOGIC_NOT, &[whole]),
        _ => whole,
    };
    draft.node(CONSTRAINT, &[whole])
}

fn rounds(cases: &mut Vec<Case>) {
    for (name, part) in ROUNDS {
        for count in [10, 4_010] {
            let mut draft = Draft::default();
            draft.rule(0, &[], &[]);
            let first = part(&mut draft);
            let part = part(&mut draft);
            let repeat = draft.node(REPEAT, &[part]);
            draft.rules[0][0] = draft.node(SEQUENCE, &[first, repeat]);
            let made = work(draft, vec![STANDS as u8; 5_000]);
            let case = Case::new("round", name, count, Call::Display, made);
            cases.push(case.with_budget(3 + count as u32));
        }
    }
}

pub fn cases() -> Vec<Case> {
    let mut cases = Vec::new();
    nests(&mut cases, 0, "nest");
    nests(&mut cases, DEEP, "deep nest");
    rounds(&mut cases);
    cases
}
