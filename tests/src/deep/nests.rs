//! Nodes put around nodes, again and again.

use crate::random::draft::Draft;
use crate::reference::table::*;

/// Where, among the parts of a node, the nest goes on.
#[derive(Clone, Copy, PartialEq, Eq)]
pub enum Side {
    Only,
    Left,
    Right,
}
use Side::{Left, Only, Right};

/// A nest: the nodes that are put around its innermost node, in turn.
#[derive(Clone, Copy)]
pub struct Nest {
    pub name: &'static str,
    pub around: &'static [(u16, Side)],
    /// The type of what it takes and of its innermost node, if they are expressions.
    pub given: u16,
}

const fn nest(name: &'static str, around: &'static [(u16, Side)], given: u16) -> Nest {
    Nest {
        name,
        around,
        given,
    }
}

/// Parsing nodes have no type.
pub const NO_TYPE: u16 = 0;

pub const PARSING: [Nest; 8] = [
    nest("nots", &[(NOT, Only)], NO_TYPE),
    nest("repeats", &[(REPEAT, Only)], NO_TYPE),
    nest("binds", &[(BIND, Only)], NO_TYPE),
    nest("sequences to the left", &[(SEQUENCE, Left)], NO_TYPE),
    nest("sequences to the right", &[(SEQUENCE, Right)], NO_TYPE),
    nest("choices to the left", &[(CHOICE, Left)], NO_TYPE),
    nest("choices to the right", &[(CHOICE, Right)], NO_TYPE),
    nest(
        "parsing nodes of all kinds",
        &[
            (SEQUENCE, Left),
            (NOT, Only),
            (CHOICE, Right),
            (BIND, Only),
            (SEQUENCE, Right),
            (CHOICE, Left),
            (NOT, Only),
            (REPEAT, Only),
        ],
        NO_TYPE,
    ),
];

/// Greater gives another type than it takes: these nests break the type rules
/// at their second node from within.
pub const GREATERS: [Nest; 2] = [
    nest("greaters to the left", &[(GREATER, Left)], INTEGER_TYPE),
    nest("greaters to the right", &[(GREATER, Right)], INTEGER_TYPE),
];

pub const EXPRESSIONS: [Nest; 17] = [
    nest("expression nots", &[(LOGIC_NOT, Only)], BOOL_TYPE),
    nest("ands to the left", &[(AND, Left)], BOOL_TYPE),
    nest("ands to the right", &[(AND, Right)], BOOL_TYPE),
    nest("ors to the left", &[(OR, Left)], BOOL_TYPE),
    nest("ors to the right", &[(OR, Right)], BOOL_TYPE),
    nest("equals to the left", &[(EQUAL, Left)], BOOL_TYPE),
    nest("equals to the right", &[(EQUAL, Right)], BOOL_TYPE),
    nest("sums to the left", &[(ADD, Left)], INTEGER_TYPE),
    nest("sums to the right", &[(ADD, Right)], INTEGER_TYPE),
    nest("differences to the left", &[(SUBTRACT, Left)], INTEGER_TYPE),
    nest(
        "differences to the right",
        &[(SUBTRACT, Right)],
        INTEGER_TYPE,
    ),
    nest("products to the left", &[(MULTIPLY, Left)], INTEGER_TYPE),
    nest("products to the right", &[(MULTIPLY, Right)], INTEGER_TYPE),
    nest("quotients to the left", &[(DIVIDE, Left)], INTEGER_TYPE),
    nest("quotients to the right", &[(DIVIDE, Right)], INTEGER_TYPE),
    nest(
        "Bools of all kinds",
        &[
            (AND, Right),
            (LOGIC_NOT, Only),
            (LOGIC_NOT, Only),
            (EQUAL, Left),
            (AND, Left),
            (LOGIC_NOT, Only),
            (OR, Right),
            (EQUAL, Right),
            (OR, Left),
            (LOGIC_NOT, Only),
        ],
        BOOL_TYPE,
    ),
    nest(
        "Integers of all kinds",
        &[
            (ADD, Left),
            (SUBTRACT, Right),
            (MULTIPLY, Left),
            (ADD, Right),
            (DIVIDE, Left),
            (SUBTRACT, Left),
            (MULTIPLY, Right),
        ],
        INTEGER_TYPE,
    ),
];

/// The byte that the messages here are made of, and one that they haven't.
pub const HELD: u16 = 71;
const NOT_HELD: u16 = 72;

/// The part beside the nest, such that the nest is always come to.
fn beside(draft: &mut Draft, kind: u16, given: u16) -> u16 {
    match kind {
        SEQUENCE => draft.node(TERMINAL, &[HELD]),
        CHOICE => draft.node(TERMINAL, &[NOT_HELD]),
        OR => draft.node(BOOL, &[0]),
        _ if given == BOOL_TYPE => draft.node(BOOL, &[1]),
        _ => draft.node(INTEGER, &[0, 1]),
    }
}

impl Nest {
    /// The type of the whole.
    pub fn whole(&self) -> u16 {
        match self.around[0].0 {
            GREATER => BOOL_TYPE,
            _ => self.given,
        }
    }

    /// What the next node around `levels` others takes, with its other part.
    pub fn takes(&self, levels: usize) -> usize {
        match self.layer(levels).1 {
            Only => 1,
            Left | Right => 2,
        }
    }

    fn layer(&self, levels: usize) -> (u16, Side) {
        self.around[levels % self.around.len()]
    }

    /// The innermost node of a nest that passes the type rules and runs on.
    pub fn innermost(&self, draft: &mut Draft) -> u16 {
        match (self.given, self.layer(0).0) {
            (NO_TYPE, CHOICE | REPEAT) => draft.node(TERMINAL, &[NOT_HELD]),
            (NO_TYPE, _) => draft.node(EMPTY, &[]),
            (_, OR) => draft.node(BOOL, &[0]),
            (given, _) => beside(draft, AND, given),
        }
    }

    /// Puts one more node around.
    pub fn put_around(&self, draft: &mut Draft, inner: u16, levels: usize) -> u16 {
        let (kind, side) = self.layer(levels);
        if side == Only {
            return match kind {
                BIND => draft.node(BIND, &[0, inner]),
                _ => draft.node(kind, &[inner]),
            };
        }
        let other = beside(draft, kind, self.given);
        match side {
            Left => draft.node(kind, &[inner, other]),
            _ => draft.node(kind, &[other, inner]),
        }
    }
}
