//! The tables: every nest in every place where it can stand, around innermost
//! nodes that are right, wrong or faulty. All pass the table check but those that
//! are spoiled on purpose.

use super::nests::{Nest, EXPRESSIONS, GREATERS, HELD, NO_TYPE, PARSING};
use super::trees;
use crate::numbers::{DONE, FIELD, TYPE};
use crate::random::draft::Draft;
use crate::reference::run::MOST_DEPTH;
use crate::reference::table::*;

pub struct Deep {
    pub name: String,
    pub words: Vec<u16>,
    pub literals: Vec<u8>,
    /// How many nodes stand around the innermost of the nest.
    pub levels: usize,
    /// What the type check must answer.
    pub verdict: u32,
    /// One of those that go through the console program too.
    pub plain: bool,
}

/// Every message here, so that no sequence runs out of it.
pub fn message() -> Vec<u8> {
    vec![HELD as u8; MOST_NODES]
}

/// What stands at the bottom of a nest.
#[derive(Clone, Copy, PartialEq, Eq, Debug)]
enum Innermost {
    Plain,
    /// Two Texts that are equal; for Bools.
    Texts,
    /// A zero divisor.
    Faulty,
    /// A slot that is never set.
    Unset,
    /// A Text, where no kind takes one.
    Wrong,
}
use Innermost::{Faulty, Plain, Texts, Unset, Wrong};

const LITERALS: &[u8] = b"roofroof";

fn innermost(draft: &mut Draft, nest: &Nest, what: Innermost) -> u16 {
    let text = |draft: &mut Draft, start| draft.node(TEXT, &[start, 4]);
    if nest.given == NO_TYPE && what != Plain {
        let expression = match what {
            Wrong => draft.node(INTEGER, &[0, 1]),
            _ => fault(draft, BOOL_TYPE),
        };
        return draft.node(CONSTRAINT, &[expression]);
    }
    match what {
        Plain => nest.innermost(draft),
        Texts => {
            let [left, right] = [text(draft, 0), text(draft, 4)];
            draft.node(EQUAL, &[left, right])
        }
        Faulty => fault(draft, nest.given),
        Unset => draft.node(SLOT, &[9]),
        Wrong => text(draft, 0),
    }
}

fn fault(draft: &mut Draft, given: u16) -> u16 {
    let [one, zero] = [1, 0].map(|low| draft.node(INTEGER, &[0, low]));
    let quotient = draft.node(DIVIDE, &[one, zero]);
    if given == INTEGER_TYPE {
        return quotient;
    }
    let other = draft.node(INTEGER, &[0, 1]);
    draft.node(GREATER, &[quotient, other])
}

/// Where an expression can stand.
#[derive(Clone, Copy, Debug)]
pub(super) enum Place {
    Constraint,
    Update,
    Argument(usize),
    Returned(usize),
    ReturnedByCallee,
}

pub(super) const PLACES: [Place; 7] = [
    Place::Constraint,
    Place::Update,
    Place::Argument(0),
    Place::Argument(3),
    Place::Returned(0),
    Place::Returned(3),
    Place::ReturnedByCallee,
];

impl Place {
    /// How many nodes it takes besides the expression.
    fn takes(self, whole: u16) -> usize {
        match self {
            Place::Constraint if whole == BOOL_TYPE => 1,
            Place::Constraint => 3,
            Place::Update => 2,
            Place::Argument(before) => before + 4,
            Place::Returned(before) => before + 1,
            Place::ReturnedByCallee => 3,
        }
    }

    /// Completes a table that has just the expression.
    pub(super) fn complete(self, draft: &mut Draft, expression: u16, whole: u16) {
        match self {
            Place::Constraint => constraint(draft, expression, whole),
            Place::Update => update(draft, expression, whole),
            Place::Argument(before) => argument(draft, expression, whole, before),
            Place::Returned(before) => returned(draft, expression, whole, before),
            Place::ReturnedByCallee => returned_by_callee(draft, expression, whole),
        }
    }
}

fn constraint(draft: &mut Draft, expression: u16, whole: u16) {
    let holds = match whole {
        BOOL_TYPE => expression,
        _ => {
            let least = draft.node(INTEGER, &[0x8000, 0]);
            draft.node(GREATER, &[expression, least])
        }
    };
    let body = draft.node(CONSTRAINT, &[holds]);
    draft.rule(body, &[], &[]);
}

fn update(draft: &mut Draft, expression: u16, whole: u16) {
    let body = draft.node(UPDATE, &[0, expression]);
    let slot = draft.node(SLOT, &[0]);
    draft.rule(body, &[], &[(slot, whole)]);
}

fn argument(draft: &mut Draft, expression: u16, whole: u16, before: usize) {
    let mut fields = [0; 9];
    fields[0] = 1;
    let others = leaves(draft, before);
    fields[1..1 + before].copy_from_slice(&others);
    fields[1 + before] = expression;
    fields[5] = 5;
    let call = draft.node(CALL, &fields);
    let received = draft.node(SLOT, &[5]);
    let body = draft.node(EMPTY, &[]);
    let slot = draft.node(SLOT, &[before as u16]);
    let mut inherited = vec![BOOL_TYPE; before];
    inherited.push(whole);
    draft.rule(call, &[], &[(received, whole)]);
    draft.rule(body, &inherited, &[(slot, whole)]);
}

fn returned(draft: &mut Draft, expression: u16, whole: u16, before: usize) {
    let others = leaves(draft, before).into_iter();
    let mut all: Vec<(u16, u16)> = others.map(|node| (node, BOOL_TYPE)).collect();
    all.push((expression, whole));
    let body = draft.node(EMPTY, &[]);
    draft.rule(body, &[], &all);
}

fn returned_by_callee(draft: &mut Draft, expression: u16, whole: u16) {
    let call = draft.node(CALL, &[1, 0, 0, 0, 0, 2]);
    let received = draft.node(SLOT, &[2]);
    let body = draft.node(EMPTY, &[]);
    draft.rule(call, &[], &[(received, whole)]);
    draft.rule(body, &[], &[(expression, whole)]);
}

/// Other arguments, or other values that are returned.
fn leaves(draft: &mut Draft, count: usize) -> Vec<u16> {
    (0..count).map(|_| draft.node(BOOL, &[1])).collect()
}

/// Where a parsing nest can stand: in the body of the start rule, of a rule that
/// it calls, of the last that there can be.
const BODIES: [usize; 3] = [0, 1, MOST_RULES - 1];

/// How many nodes the rules take besides the nest.
fn rules_take(rule: usize) -> usize {
    rule
}

fn complete_rules(draft: &mut Draft, body: u16, rule: usize) {
    if rule > 0 {
        let call = draft.node(CALL, &[rule as u16]);
        draft.rule(call, &[], &[]);
        for _ in 1..rule {
            let empty = draft.node(EMPTY, &[]);
            draft.rule(empty, &[], &[]);
        }
    }
    draft.rule(body, &[], &[]);
}

/// Puts nodes around up to so many nodes and so many levels in all. The
/// outermost node, and how many stand around the innermost.
fn nested(
    draft: &mut Draft,
    nest: &Nest,
    inner: u16,
    nodes: usize,
    most_levels: usize,
) -> (u16, usize) {
    let (mut node, mut levels) = (inner, 0);
    while levels < most_levels && draft.nodes.len() + nest.takes(levels) <= nodes {
        node = nest.put_around(draft, node, levels);
        levels += 1;
    }
    (node, levels)
}

pub(super) fn drafted() -> Draft {
    Draft {
        literals: LITERALS.to_vec(),
        ..Draft::default()
    }
}

pub(super) fn finished(
    name: String,
    draft: &Draft,
    levels: usize,
    verdict: u32,
    plain: bool,
) -> Deep {
    assert!(draft.nodes.len() <= MOST_NODES, "{name}: too many nodes");
    assert!(
        height(draft) > levels,
        "{name}: not {levels} levels, counted from the nodes"
    );
    Deep {
        name,
        words: draft.words(),
        literals: draft.literals.clone(),
        levels,
        verdict,
        plain,
    }
}

/// The most nodes on a way from a node through its parts, counted from the
/// records alone. Parts come before the node that they belong to.
fn height(draft: &Draft) -> usize {
    let mut heights: Vec<usize> = Vec::new();
    for node in 0..draft.nodes.len() {
        let parts = draft.parts(node);
        let highest = parts.iter().map(|&part| heights[part]).max();
        heights.push(1 + highest.unwrap_or(0));
    }
    heights.iter().copied().max().unwrap_or(0)
}

fn an_expression(nest: &Nest, place: Place, what: Innermost) -> Deep {
    let mut draft = drafted();
    let nodes = MOST_NODES - place.takes(nest.whole());
    let inner = innermost(&mut draft, nest, what);
    let (expression, levels) = nested(&mut draft, nest, inner, nodes, usize::MAX);
    as_deep_as_can_be(nest, levels, draft.nodes.len(), nodes);
    place.complete(&mut draft, expression, nest.whole());
    let right = matches!(what, Plain | Texts | Faulty) && nest.whole() == nest.given;
    finished(
        format!("{}, {what:?}, {place:?}", nest.name),
        &draft,
        levels,
        if right { DONE } else { TYPE },
        what == Plain,
    )
}

/// No other node of the nest would fit. (A node with two parts takes two nodes a
/// level, so 511 levels of them are the most there can be.)
fn as_deep_as_can_be(nest: &Nest, levels: usize, used: usize, nodes: usize) {
    assert!(used + nest.takes(levels) > nodes, "{}: not full", nest.name);
}

/// `most_levels` for a nest that isn't as deep as can be, but runs.
fn a_body(nest: &Nest, rule: usize, what: Innermost, most_levels: Option<usize>) -> Deep {
    let mut draft = drafted();
    // binds in a not, a repeat or a choice: the slot has its type before
    let is_mixed = nest.around.len() > 1;
    let nodes = MOST_NODES - rules_take(rule) - if is_mixed { 3 } else { 0 };
    let inner = innermost(&mut draft, nest, what);
    let most = most_levels.unwrap_or(usize::MAX);
    let (mut body, levels) = nested(&mut draft, nest, inner, nodes, most);
    match most_levels {
        None => as_deep_as_can_be(nest, levels, draft.nodes.len(), nodes),
        Some(most) => assert!(levels == most, "{}: not {most} levels", nest.name),
    }
    if is_mixed {
        let empty = draft.node(EMPTY, &[]);
        let bind = draft.node(BIND, &[0, empty]);
        body = draft.node(SEQUENCE, &[bind, body]);
    }
    complete_rules(&mut draft, body, rule);
    finished(
        format!("{levels} {} in rule {rule}, {what:?}", nest.name),
        &draft,
        levels,
        if what == Wrong { TYPE } else { DONE },
        what == Plain,
    )
}

/// Half of it parsing nodes, and in the innermost a constraint with the rest.
fn halves(outer: &Nest, inner: &Nest, levels: usize) -> Deep {
    let mut draft = drafted();
    let is_mixed = outer.around.len() > 1;
    let outer_takes: usize = (0..levels).map(|level| outer.takes(level)).sum();
    let nodes = MOST_NODES - outer_takes - if is_mixed { 4 } else { 1 };
    let leaf = innermost(&mut draft, inner, Plain);
    let (expression, inner_levels) = nested(&mut draft, inner, leaf, nodes, usize::MAX);
    let constraint = draft.node(CONSTRAINT, &[expression]);
    let (mut body, outer_levels) = nested(&mut draft, outer, constraint, MOST_NODES, levels);
    assert!(outer_levels == levels, "{}: not {levels}", outer.name);
    if is_mixed {
        let empty = draft.node(EMPTY, &[]);
        let bind = draft.node(BIND, &[0, empty]);
        body = draft.node(SEQUENCE, &[bind, body]);
    }
    draft.rule(body, &[], &[]);
    let name = format!("{levels} {} over {inner_levels} {}", outer.name, inner.name);
    finished(name, &draft, levels + 1 + inner_levels, DONE, true)
}

/// Rule 1 calls itself until it is too deep, each time with a sum of its own
/// argument and as many ones as there is room for.
fn calling_itself() -> Deep {
    let mut draft = drafted();
    let sums = &EXPRESSIONS[8];
    let slot = draft.node(SLOT, &[0]);
    let (sum, levels) = nested(&mut draft, sums, slot, MOST_NODES - 9, usize::MAX);
    let others = [1, 2, 3].map(|slot| draft.node(SLOT, &[slot]));
    let inner = draft.node(CALL, &[1, sum, others[0], others[1], others[2]]);
    let ones = [1, 2, 3, 4].map(|low| draft.node(INTEGER, &[0, low]));
    let outer = draft.node(CALL, &[1, ones[0], ones[1], ones[2], ones[3]]);
    draft.rule(outer, &[], &[]);
    draft.rule(inner, &[INTEGER_TYPE; 4], &[]);
    let name = format!("a rule that calls itself with {levels} sums");
    finished(name, &draft, levels, DONE, true)
}

/// Each of the 64 rules calls the next one below two nots, with an argument that
/// is handed on; the last has as deep an expression as there is room for in what it
/// returns, and that is handed back.
fn calling_the_next() -> Deep {
    let mut draft = drafted();
    let nots = &PARSING[0];
    let bools = &EXPRESSIONS[15];
    let last = MOST_RULES - 1;
    // a rule takes five nodes: argument, call, two nots, what it returns; the first
    // sets its slot before, the last has a body
    let nodes = MOST_NODES - last * 5 - 3 - 1;
    let leaf = draft.node(SLOT, &[0]);
    let (expression, levels) = nested(&mut draft, bools, leaf, nodes, usize::MAX);
    for rule in 0..last {
        let is_start = rule == 0;
        let argument = draft.node(SLOT, &[0]);
        let next = (rule + 1) as u16;
        let call = draft.node(CALL, &[next, argument]);
        let (mut body, _) = nested(&mut draft, nots, call, MOST_NODES, 2);
        if is_start {
            let holds = draft.node(BOOL, &[1]);
            let update = draft.node(UPDATE, &[0, holds]);
            body = draft.node(SEQUENCE, &[update, body]);
        }
        let slot = draft.node(SLOT, &[0]);
        let inherited: &[u16] = if is_start { &[] } else { &[BOOL_TYPE] };
        draft.rule(body, inherited, &[(slot, BOOL_TYPE)]);
    }
    let empty = draft.node(EMPTY, &[]);
    draft.rule(empty, &[BOOL_TYPE], &[(expression, BOOL_TYPE)]);
    let name = format!("64 rules, each calling the next, and {levels} Bools");
    finished(name, &draft, levels, DONE, true)
}

/// With a word that its record must not have.
fn spoiled(deep: &Deep, node: usize, where_: &str) -> Deep {
    let mut draft = Draft::of(&deep.words, &deep.literals).expect("a whole table");
    draft.nodes[node][NODE_WORDS - 1] = 1;
    Deep {
        name: format!("{}, with a bad word in its {where_} node", deep.name),
        words: draft.words(),
        literals: deep.literals.clone(),
        levels: deep.levels,
        verdict: FIELD,
        plain: false,
    }
}

/// Makes a table when it is wanted: there are many, and a try may begin late.
pub type Maker = Box<dyn Fn() -> Deep>;

pub fn all() -> Vec<Maker> {
    let expressions = EXPRESSIONS.iter().chain(&GREATERS);
    let calls: [Maker; 2] = [Box::new(calling_itself), Box::new(calling_the_next)];
    let nests = PARSING.iter().flat_map(bodies);
    nests
        .chain(expressions.flat_map(expressions_of))
        .chain(calls)
        .chain(trees::all())
        .collect()
}

/// Those that have this in their name.
pub fn with(part: &str) -> Vec<Maker> {
    let has_it = |make: &Maker| part.is_empty() || make().name.contains(part);
    all().into_iter().filter(has_it).collect()
}

fn expressions_of(nest: &'static Nest) -> Vec<Maker> {
    let one = |place, what| Box::new(move || an_expression(nest, place, what)) as Maker;
    let texts = (nest.given == BOOL_TYPE).then_some(Texts);
    let others = [Faulty, Unset, Wrong].into_iter().chain(texts);
    let some_places = [PLACES[0], PLACES[3], PLACES[6]];
    let plain = PLACES.map(|place| one(place, Plain));
    let others = others.flat_map(|what| some_places.map(|place| one(place, what)));
    plain.into_iter().chain(others).collect()
}

fn bodies(nest: &'static Nest) -> Vec<Maker> {
    let one = |rule, what, most| Box::new(move || a_body(nest, rule, what, most)) as Maker;
    let deepest = MOST_DEPTH as usize;
    let plain = BODIES.map(|rule| one(rule, Plain, None));
    let others = [Wrong, Faulty].map(|what| {
        [
            one(0, what, None),
            one(1, what, None),
            one(0, what, Some(deepest - 4)),
        ]
    });
    // the start body has depth 1: with one node less than the deepest around it the
    // innermost is the last that a run comes to, with as many it is too deep
    let runs = [deepest - 1, deepest].map(|levels| one(0, Plain, Some(levels)));
    let plain = plain.into_iter().chain(others.into_iter().flatten());
    plain
        .chain(runs)
        .chain(halves_of(nest))
        .chain(spoiled_of(nest))
        .collect()
}

fn halves_of(nest: &'static Nest) -> impl Iterator<Item = Maker> {
    let one = move |inner, levels| Box::new(move || halves(nest, inner, levels)) as Maker;
    let inner = [0, 1, 2, 15].map(|index: usize| &EXPRESSIONS[index]);
    let levels = [200, MOST_DEPTH as usize - 3];
    inner
        .into_iter()
        .flat_map(move |inner| levels.map(|levels| one(inner, levels)))
}

fn spoiled_of(nest: &'static Nest) -> [Maker; 2] {
    let whole = || a_body(nest, 0, Plain, None);
    let last = |deep: &Deep| usize::from(deep.words[1]) - 1;
    [
        Box::new(move || spoiled(&whole(), 0, "first")),
        Box::new(move || {
            let deep = whole();
            spoiled(&deep, last(&deep), "last")
        }),
    ]
}
