//! Expressions for the bound: chains of each operator, of each leaf that it takes, shallow and deep, and comparisons of Texts.

use super::{work, Call, Case};
use crate::grammars::Work;
use reader_tests::random::draft::Draft;
use reader_tests::reference::table::*;

pub struct Leaf {
    pub name: &'static str,
    kind: u16,
    fields: [u16; 2],
    integer: bool,
}

const fn leaf(name: &'static str, kind: u16, fields: [u16; 2], integer: bool) -> Leaf {
    Leaf {
        name,
        kind,
        fields,
        integer,
    }
}

/// Slot 0 holds 1, and slot 1 true.
pub const LEAVES: [Leaf; 6] = [
    leaf("false", BOOL, [0, 0], false),
    leaf("true", BOOL, [1, 0], false),
    leaf("a slot's Bool", SLOT, [1, 0], false),
    leaf("1", INTEGER, [0, 1], true),
    leaf("-1", INTEGER, [65_535, 65_535], true),
    leaf("a slot's Integer", SLOT, [0, 0], true),
];

impl Leaf {
    pub fn fits(&self, kind: u16) -> bool {
        self.integer == matches!(kind, ADD..=DIVIDE | GREATER)
    }

    fn put(&self, draft: &mut Draft) -> u16 {
        draft.node(self.kind, &self.fields)
    }
}

pub const OPERATORS: [(&str, u16); 9] = [
    ("add", ADD),
    ("subtract", SUBTRACT),
    ("multiply", MULTIPLY),
    ("divide", DIVIDE),
    ("equal", EQUAL),
    ("greater", GREATER),
    ("and", AND),
    ("or", OR),
    ("not", LOGIC_NOT),
];

/// `count` operators one inside the other, as their left or right operand, and a Bool in the end. Greater stands in equals, since it takes no Bool.
pub fn chain(draft: &mut Draft, kind: u16, leaf: &Leaf, right: bool, count: usize) -> u16 {
    if kind == GREATER {
        return greaters(draft, leaf, right, count);
    }
    let mut node = leaf.put(draft);
    for _ in 0..count {
        if kind == LOGIC_NOT {
            node = draft.node(kind, &[node]);
            continue;
        }
        let other = leaf.put(draft);
        let parts = if right { [other, node] } else { [node, other] };
        node = draft.node(kind, &parts);
    }
    if !leaf.integer {
        return node;
    }
    let other = leaf.put(draft);
    draft.node(GREATER, &[node, other])
}

fn greaters(draft: &mut Draft, leaf: &Leaf, right: bool, count: usize) -> u16 {
    let mut node = draft.node(BOOL, &[0]);
    for _ in 0..count.div_ceil(2) {
        let operands = [leaf.put(draft), leaf.put(draft)];
        let other = draft.node(GREATER, &operands);
        let parts = if right { [other, node] } else { [node, other] };
        node = draft.node(EQUAL, &parts);
    }
    node
}

/// A full tree: `levels` operators one inside the other on every side.
fn tree(draft: &mut Draft, kind: u16, leaf: &Leaf, levels: usize) -> u16 {
    if levels == 0 {
        return leaf.put(draft);
    }
    let parts = [levels, levels].map(|levels| tree(draft, kind, leaf, levels - 1));
    draft.node(kind, &parts)
}

/// Visits before that of the constraint.
const BEFORE: u32 = 4;

/// Nodes of `constrained` beside the expression.
pub const AROUND: usize = 7;

/// Slots 0 and 1 are set, and then one constraint is all that is left.
pub fn constrained(mut draft: Draft, whole: u16) -> Work {
    let mut body = draft.node(CONSTRAINT, &[whole]);
    for (slot, kind, fields) in [(1, BOOL, [1, 0]), (0, INTEGER, [0, 1])] {
        let value = draft.node(kind, &fields);
        let set = draft.node(UPDATE, &[slot, value]);
        body = draft.node(SEQUENCE, &[set, body]);
    }
    draft.rule(body, &[], &[]);
    work(draft, Vec::new())
}

/// The run, and the same run without the constraint's visit.
fn both(
    cases: &mut Vec<Case>,
    group: &'static str,
    name: &str,
    size: usize,
    make: &dyn Fn() -> Work,
) {
    for budget in [BEFORE, BEFORE + 1] {
        let case = Case::new(group, name, size, Call::Display, make());
        cases.push(case.with_budget(budget));
    }
}

/// How many operators. From 17 on they are deep.
const COUNTS: [usize; 9] = [1, 2, 4, 8, 14, 20, 40, 100, 400];

fn chains(cases: &mut Vec<Case>) {
    for (name, kind) in OPERATORS {
        for given in LEAVES.iter().filter(|given| given.fits(kind)) {
            for right in [false, true] {
                let way = if right { "right" } else { "left" };
                let name = format!("{name} of {} to the {way}", given.name);
                for count in COUNTS {
                    both(cases, "expression", &name, count, &|| {
                        let mut draft = Draft::default();
                        let whole = chain(&mut draft, kind, given, right, count);
                        constrained(draft, whole)
                    });
                }
            }
        }
    }
}

fn trees(cases: &mut Vec<Case>) {
    for (name, kind) in [("equal", EQUAL), ("and", AND), ("or", OR)] {
        for given in LEAVES.iter().filter(|given| given.fits(kind)) {
            let name = format!("full trees of {name} of {}", given.name);
            for levels in [2, 4, 8] {
                both(cases, "expression", &name, levels, &|| {
                    let mut draft = Draft::default();
                    let whole = tree(&mut draft, kind, given, levels);
                    constrained(draft, whole)
                });
            }
        }
    }
}

/// How many operators the first pile has room for: nots one inside the other.
fn depths(cases: &mut Vec<Case>) {
    for count in [15, 16, 17, 18] {
        both(cases, "depth", "nots in each other", count, &|| {
            let mut draft = Draft::default();
            let whole = chain(&mut draft, LOGIC_NOT, &LEAVES[0], false, count);
            constrained(draft, whole)
        });
    }
}

/// Two Texts of the literals that are equal, of so many bytes.
fn texts(cases: &mut Vec<Case>) {
    for length in [0, 64, 2_048] {
        both(cases, "text", "equal of two Texts", length, &|| {
            let mut draft = Draft {
                literals: vec![b'a'; 2 * length],
                ..Draft::default()
            };
            let length = length as u16;
            let operands = [0, length].map(|start| draft.node(TEXT, &[start, length]));
            let whole = draft.node(EQUAL, &operands);
            constrained(draft, whole)
        });
    }
}

/// A single leaf, with which every other expression is compared: one that fails, and one that matches.
fn leaves(cases: &mut Vec<Case>) {
    for (size, leaf) in LEAVES[..2].iter().enumerate() {
        both(cases, "leaf", leaf.name, size, &|| {
            let mut draft = Draft::default();
            let whole = leaf.put(&mut draft);
            constrained(draft, whole)
        });
    }
}

pub fn cases() -> Vec<Case> {
    let mut cases = Vec::new();
    leaves(&mut cases);
    chains(&mut cases);
    trees(&mut cases);
    depths(&mut cases);
    texts(&mut cases);
    cases
}
