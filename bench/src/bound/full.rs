//! Tables for the checks: as full as can be of one kind, of many rules, deep and wide, and such that fail at their end.

use super::values::{chain, constrained, Leaf, AROUND, LEAVES, OPERATORS};
use super::{work, Call, Case};
use crate::grammars::{blocks, smallest, Work};
use reader_tests::random::draft::Draft;
use reader_tests::reference::table::*;

/// A parsing node with its parts.
type Unit = fn(&mut Draft) -> u16;

const WORD: &[u16] = &[b'a' as u16];

fn terminal(draft: &mut Draft) -> u16 {
    draft.node(TERMINAL, WORD)
}

fn empty(draft: &mut Draft) -> u16 {
    draft.node(EMPTY, &[])
}

fn choice(draft: &mut Draft) -> u16 {
    let arms = [terminal(draft), terminal(draft)];
    draft.node(CHOICE, &arms)
}

fn repeat(draft: &mut Draft) -> u16 {
    let part = terminal(draft);
    draft.node(REPEAT, &[part])
}

fn bind(draft: &mut Draft) -> u16 {
    let part = terminal(draft);
    draft.node(BIND, &[15, part])
}

fn update_by(draft: &mut Draft, slot: u16, leaf: (u16, u16)) -> u16 {
    let value = draft.node(leaf.0, &[0, leaf.1]);
    draft.node(UPDATE, &[slot, value])
}

fn update_integer(draft: &mut Draft) -> u16 {
    update_by(draft, 14, (INTEGER, 9))
}

fn update_text(draft: &mut Draft) -> u16 {
    update_by(draft, 13, (TEXT, 0))
}

fn constraint(draft: &mut Draft) -> u16 {
    let truth = draft.node(BOOL, &[1]);
    draft.node(CONSTRAINT, &[truth])
}

fn comparison(draft: &mut Draft) -> u16 {
    let operands = [0, 1].map(|low| draft.node(INTEGER, &[0, low]));
    let truth = draft.node(GREATER, &operands);
    draft.node(CONSTRAINT, &[truth])
}

fn call_with(draft: &mut Draft, kind: u16) -> u16 {
    let mut fields = [1, 0, 0, 0, 0, 12, 13, 14, 15];
    for field in &mut fields[1..5] {
        *field = draft.node(kind, &[]);
    }
    draft.node(CALL, &fields)
}

fn call_integers(draft: &mut Draft) -> u16 {
    call_with(draft, INTEGER)
}

fn call_texts(draft: &mut Draft) -> u16 {
    call_with(draft, TEXT)
}

fn not(draft: &mut Draft, part: u16) -> u16 {
    draft.node(NOT, &[part])
}

fn call_none(draft: &mut Draft) -> u16 {
    draft.node(CALL, &[])
}

/// Name, unit, nodes that it takes, the type of a call's values.
const UNITS: [(&str, Unit, usize, u16); 12] = [
    ("calls of no values", call_none, 1, INTEGER_TYPE),
    ("empty nodes", empty, 1, INTEGER_TYPE),
    ("terminals", terminal, 1, INTEGER_TYPE),
    ("choices", choice, 3, INTEGER_TYPE),
    ("repeats", repeat, 2, INTEGER_TYPE),
    ("binds", bind, 2, INTEGER_TYPE),
    ("updates by an Integer", update_integer, 2, INTEGER_TYPE),
    ("updates by a Text", update_text, 2, INTEGER_TYPE),
    ("constraints of a Bool", constraint, 2, INTEGER_TYPE),
    ("constraints of greater", comparison, 4, INTEGER_TYPE),
    ("calls of 4 + 4 Integers", call_integers, 5, INTEGER_TYPE),
    ("calls of 4 + 4 Texts", call_texts, 5, TEXT_TYPE),
];

/// Rule 1 inherits four and returns them; the others are empty.
fn other_rules(draft: &mut Draft, rules: usize, given: u16) {
    let slots: Vec<u16> = (0..4).map(|slot| draft.node(SLOT, &[slot])).collect();
    let returned: Vec<(u16, u16)> = slots.into_iter().map(|node| (node, given)).collect();
    for rule in 1..rules {
        let body = empty(draft);
        match rule {
            1 => draft.rule(body, &[given; 4], &returned),
            _ => draft.rule(body, &[], &[]),
        }
    }
}

/// How units are joined: by sequences or choices, down to the left or to the right.
#[derive(Clone, Copy)]
struct Joint {
    name: &'static str,
    kind: u16,
    left: bool,
}

const JOINTS: [Joint; 3] = [
    Joint {
        name: "in sequences to the right",
        kind: SEQUENCE,
        left: false,
    },
    Joint {
        name: "in sequences to the left",
        kind: SEQUENCE,
        left: true,
    },
    Joint {
        name: "in choices",
        kind: CHOICE,
        left: false,
    },
];

/// As many units as there is room for.
fn wide(unit: Unit, takes: usize, given: u16, rules: usize, joint: Joint) -> Draft {
    let mut draft = Draft::default();
    draft.rule(0, &[], &[]);
    other_rules(&mut draft, rules, given);
    let mut units = Vec::new();
    let mut room = MOST_NODES - draft.nodes.len();
    while room > takes {
        units.push(unit(&mut draft));
        room -= takes + 1;
    }
    if !joint.left {
        units.reverse();
    }
    let mut body = units[0];
    for &unit in &units[1..] {
        let parts = if joint.left {
            [body, unit]
        } else {
            [unit, body]
        };
        body = draft.node(joint.kind, &parts);
    }
    draft.rules[0][0] = body;
    draft
}

/// One node around the other.
fn nest(kind: u16) -> Draft {
    let mut draft = Draft::default();
    let mut node = terminal(&mut draft);
    while draft.nodes.len() < MOST_NODES {
        node = match kind {
            BIND => draft.node(BIND, &[15, node]),
            REPEAT => draft.node(REPEAT, &[node]),
            _ => not(&mut draft, node),
        };
    }
    draft.rule(node, &[], &[]);
    draft
}

/// Leaves of a kind; slots from `first` on.
fn some(draft: &mut Draft, count: usize, kind: u16, first: u16) -> Vec<u16> {
    let fields = (first..).map(|slot| if kind == SLOT { slot } else { 0 });
    let leaves = fields.take(count).map(|field| draft.node(kind, &[field]));
    leaves.collect()
}

/// What stands in the body of each rule.
#[derive(Clone, Copy)]
enum Body {
    Plain(Unit),
    /// A call of the next with the rule's own values, where it has some.
    Hands,
    /// A call of the next with leaves of the kind; and such are returned.
    Makes,
}

/// How many values each rule inherits and returns, and the leaf that makes one.
#[derive(Clone, Copy)]
struct Values {
    inherited: usize,
    returned: usize,
    kind: u16,
    given: u16,
}

fn call_next(draft: &mut Draft, rule: usize, own: u16, values: Values) -> u16 {
    let mut fields = [0; 9];
    fields[0] = 1 + rule as u16 % (MOST_RULES as u16 - 1);
    let arguments = some(draft, values.inherited, own, 0);
    fields[1..1 + arguments.len()].copy_from_slice(&arguments);
    for (field, slot) in fields[5..5 + values.returned].iter_mut().zip(8..) {
        *field = slot;
    }
    draft.node(CALL, &fields)
}

/// As many rules as there can be.
fn many_rules(values: Values, body: Body) -> Draft {
    let mut draft = Draft::default();
    for rule in 0..MOST_RULES {
        let none = rule == 0 || matches!(body, Body::Makes) || values.inherited == 0;
        let own = if none { values.kind } else { SLOT };
        let node = match body {
            Body::Plain(unit) => unit(&mut draft),
            _ => call_next(&mut draft, rule, own, values),
        };
        let back = match body {
            Body::Hands => some(&mut draft, values.returned, SLOT, 8),
            _ => some(&mut draft, values.returned, own, 0),
        };
        let returned: Vec<_> = back.into_iter().map(|node| (node, values.given)).collect();
        let inherited = if rule == 0 { 0 } else { values.inherited };
        draft.rule(node, &[values.given; 4][..inherited], &returned);
    }
    draft
}

/// One constraint over as many operators as there is room for.
fn expressions(kind: u16, leaf: &Leaf, right: bool) -> Work {
    let mut draft = Draft::default();
    let takes = if kind == LOGIC_NOT { 1 } else { 2 };
    let room = MOST_NODES - AROUND - 6;
    let whole = chain(&mut draft, kind, leaf, right, room / takes);
    constrained(draft, whole)
}

fn wide_tables(tables: &mut Vec<(String, Work)>) {
    for (name, unit, takes, given) in UNITS {
        for joint in JOINTS {
            for rules in [2, MOST_RULES] {
                let draft = wide(unit, takes, given, rules, joint);
                let name = format!("{name} {}", joint.name);
                tables.push((name, work(draft, Vec::new())));
            }
        }
    }
}

fn deep_tables(tables: &mut Vec<(String, Work)>) {
    for (name, kind) in [("nots", NOT), ("binds", BIND), ("repeats", REPEAT)] {
        let name = format!("{name} in each other");
        tables.push((name, work(nest(kind), Vec::new())));
    }
    for (name, kind) in OPERATORS {
        for leaf in LEAVES.iter().filter(|leaf| leaf.fits(kind)) {
            for right in [false, true] {
                let way = if right { "right" } else { "left" };
                let name = format!("{name} of {} to the {way}", leaf.name);
                tables.push((name, expressions(kind, leaf, right)));
            }
        }
    }
}

fn tables_of_rules(tables: &mut Vec<(String, Work)>) {
    let bodies = [
        ("an empty body", Body::Plain(empty)),
        ("a bind", Body::Plain(bind)),
        ("an update", Body::Plain(update_text)),
        ("a constraint", Body::Plain(constraint)),
        ("a call that hands on", Body::Hands),
        ("a call", Body::Makes),
    ];
    for (kind, given) in [(INTEGER, INTEGER_TYPE), (TEXT, TEXT_TYPE)] {
        for (inherited, returned) in [(0, 0), (0, 4), (4, 0), (4, 4)] {
            let values = Values {
                inherited,
                returned,
                kind,
                given,
            };
            for (what, body) in bodies {
                let name = format!("rules of {what}, {}", told(values));
                tables.push((name, work(many_rules(values, body), Vec::new())));
            }
        }
    }
}

fn told(values: Values) -> String {
    let kind = if values.kind == TEXT {
        "Texts"
    } else {
        "Integers"
    };
    format!("{} + {} {kind}", values.inherited, values.returned)
}

const FULL: Values = Values {
    inherited: 4,
    returned: 4,
    kind: TEXT,
    given: TEXT_TYPE,
};

/// The last word, the last node and the last rule that can be wrong.
fn failing() -> Vec<(&'static str, Work)> {
    let sound = || wide(call_integers, 5, INTEGER_TYPE, MOST_RULES, JOINTS[0]);
    let mut field = work(sound(), Vec::new());
    *field.words.last_mut().expect("a word") = 1;
    let mut unused = sound();
    unused.node(EMPTY, &[]);
    let mut start = many_rules(FULL, Body::Hands);
    start.rules[0][1] = 1;
    start.rules[0][2] = TEXT_TYPE;
    // A call of rule 0 would have an argument now, but none calls it.
    let mut typed = many_rules(FULL, Body::Hands);
    typed.rules[MOST_RULES - 1][14] = BOOL_TYPE;
    vec![
        ("FIELD at the last word", field),
        ("USE at the last node", work(unused, Vec::new())),
        ("START", work(start, Vec::new())),
        ("TYPE of the last rule", work(typed, Vec::new())),
    ]
}

/// Each by the table check and by the type check.
pub fn cases() -> Vec<Case> {
    let mut works = vec![("one node".to_string(), smallest())];
    wide_tables(&mut works);
    deep_tables(&mut works);
    tables_of_rules(&mut works);
    for literals in [5, MOST_LITERALS] {
        let name = format!("the mixed table, {literals} literals");
        works.push((name, blocks(MOST_RULES, literals)));
    }
    for (name, work) in failing() {
        works.push((name.to_string(), work));
    }
    let mut cases = Vec::new();
    for (name, made) in works {
        for call in [Call::Check, Call::TypeCheck] {
            let copy = Work {
                words: made.words.clone(),
                literals: made.literals.clone(),
                message: Vec::new(),
            };
            cases.push(Case::new("check", &name, 0, call, copy));
        }
    }
    cases
}
