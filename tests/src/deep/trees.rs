//! Random expressions of 1 to 254 levels: the operators, on which side the next one
//! stands, and what stands beside it. Most have between 10 and 24 levels: somewhere
//! between shallow and deep code may change how it keeps what is pending, and this
//! library does so after 16.

use super::tables::{drafted, finished, Maker, Place, PLACES};
use crate::numbers::DONE;
use crate::random::draft::Draft;
use crate::random::prng::Random;
use crate::reference::table::*;
use crate::subject::{Reference, Subject};

const TREES: u64 = 1_000;

/// Nodes that are left for what stands around an expression.
const AROUND: usize = 8;

/// The most nodes that a level takes: an operator and what stands beside it.
const LEVEL: usize = 4;

pub fn all() -> Vec<Maker> {
    let one = |seed| Box::new(move || a_tree(seed)) as Maker;
    (0..TREES).map(one).collect()
}

struct Tree {
    draft: Draft,
    random: Random,
}

impl Tree {
    /// Now and then a slot that is never set, or a Text.
    fn leaf(&mut self, given: u16) -> u16 {
        match (self.random.below(400), given) {
            (0, _) => self.draft.node(SLOT, &[9]),
            (1, _) => self.draft.node(TEXT, &[0, 4]),
            (_, BOOL_TYPE) => {
                let bit = self.random.below(2) as u16;
                self.draft.node(BOOL, &[bit])
            }
            _ => {
                let number = self.random.pick(&[-2, -1, 0, 1, 1, 2, 3, i32::MAX]);
                let fields = [(number >> 16) as u16, number as u16];
                self.draft.node(INTEGER, &fields)
            }
        }
    }

    /// A leaf, or an operator at two.
    fn beside(&mut self, given: u16) -> u16 {
        if self.random.chance(700) {
            return self.leaf(given);
        }
        let [left, right] = [self.leaf(given), self.leaf(given)];
        let kind = match given {
            BOOL_TYPE => self.random.pick(&[AND, OR, EQUAL]),
            _ => self.random.pick(&[ADD, SUBTRACT, MULTIPLY, DIVIDE]),
        };
        self.draft.node(kind, &[left, right])
    }

    /// One more operator around, and its type.
    fn around(&mut self, inner: u16, given: u16) -> (u16, u16) {
        if given == BOOL_TYPE && self.random.chance(300) {
            return (self.draft.node(LOGIC_NOT, &[inner]), BOOL_TYPE);
        }
        let other = self.beside(given);
        let (kind, whole) = match (given, self.random.chance(20)) {
            (BOOL_TYPE, _) => (self.random.pick(&[AND, OR, EQUAL]), BOOL_TYPE),
            (_, true) => (self.random.pick(&[EQUAL, GREATER]), BOOL_TYPE),
            _ => (
                self.random.pick(&[ADD, SUBTRACT, SUBTRACT, MULTIPLY]),
                given,
            ),
        };
        let parts = match self.random.below(2) {
            0 => [inner, other],
            _ => [other, inner],
        };
        (self.draft.node(kind, &parts), whole)
    }
}

fn a_tree(seed: u64) -> super::tables::Deep {
    let mut tree = Tree {
        draft: drafted(),
        random: Random::new(seed),
    };
    let most = (MOST_NODES - AROUND) / LEVEL;
    let high = match tree.random.below(10) {
        0..=5 => tree.random.between(10, 24),
        6..=8 => tree.random.between(1, 40),
        _ => tree.random.between(1, most),
    };
    let mut given = tree.random.pick(&[BOOL_TYPE, INTEGER_TYPE]);
    let mut expression = tree.leaf(given);
    for _ in 0..high {
        (expression, given) = tree.around(expression, given);
    }
    let place: Place = tree.random.pick(&PLACES);
    place.complete(&mut tree.draft, expression, given);
    let name = format!("random tree {seed} of {high} levels, {place:?}");
    let mut deep = finished(name, &tree.draft, high, DONE, seed % 50 == 0);
    let reference = Reference { work_words: 0 };
    deep.verdict = reference.type_check(&deep.words, &deep.literals).0;
    deep
}
