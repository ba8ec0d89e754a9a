//! The type rules of document 01 over one rule, with what is wrong where.
//!
//! How 'the smallest node whose judgement fails' is read here:
//! - A judgement fails at a node where the judgements of all its parts pass and
//!   its own rule does not hold: a part's failure is not its node's own.
//! - A judgement that fails leaves no slots to go on with. So in a sequence the
//!   second part is not judged after a first that fails, a bind is not judged
//!   after its part fails, and the returned nodes are not after the body.
//! - What starts from the same slots is all judged: both arms of a choice, both
//!   operands, all arguments of a call, all returned nodes.
//! - Arguments of other types than the callee's, and a receiving slot of another
//!   type, are the call's own; a returned node of another type than declared is
//!   counted at that node.
//! - Among all that fail so in the walk, the smallest number is told.

use super::names::type_name;
use reader_tests::reference::table::*;

/// 0 is unset.
pub type Slots = [u16; SLOTS];

#[derive(Clone, Debug, PartialEq, Eq)]
pub struct Failure {
    pub node: usize,
    /// What its rule wants, and what it has.
    pub says: String,
}

/// The failure to tell of a rule of a table of sound form; nothing where the rule
/// passes.
pub fn failure(table: &Table, rule: usize) -> Option<Failure> {
    let mut judge = Judge {
        table,
        failures: Vec::new(),
    };
    judge.rule(rule);
    judge.failures.into_iter().min_by_key(|found| found.node)
}

struct Judge<'a> {
    table: &'a Table<'a>,
    failures: Vec<Failure>,
}

impl Judge<'_> {
    fn fail<T>(&mut self, node: usize, says: String) -> Option<T> {
        self.failures.push(Failure { node, says });
        None
    }

    fn rule(&mut self, rule: usize) {
        let table = self.table;
        let mut slots = [0; SLOTS];
        for (index, slot) in slots.iter_mut().enumerate().take(table.inherited(rule)) {
            *slot = table.inherited_type(rule, index);
        }
        let Some(left) = self.leaves(table.body(rule), &slots) else {
            return;
        };
        for index in 0..table.returned(rule) {
            self.returned(rule, index, &left);
        }
    }

    fn returned(&mut self, rule: usize, index: usize, slots: &Slots) {
        let node = self.table.returned_node(rule, index);
        let declared = self.table.returned_type(rule, index);
        let before = self.failures.len();
        let found = self.type_of(node, slots);
        let after = format!(" (after the body, for returned node {})", index + 1);
        for failure in &mut self.failures[before..] {
            failure.says += &after;
        }
        if let Some(found) = found.filter(|&found| found != declared) {
            let [found, declared] = [found, declared].map(type_name);
            let says = format!(
                "returned node {} is {found}, the rule declares {declared}",
                index + 1
            );
            self.failures.push(Failure { node, says });
        }
    }

    /// What a parsing node leaves in the slots.
    fn leaves(&mut self, node: usize, slots: &Slots) -> Option<Slots> {
        let table = self.table;
        let part = |field: usize| table.part(node, field);
        match table.kind(node) {
            EMPTY | TERMINAL => Some(*slots),
            SEQUENCE => {
                let middle = self.leaves(part(0), slots)?;
                self.leaves(part(1), &middle)
            }
            CHOICE => self.choice(node, slots),
            REPEAT | NOT => self.unchanged(node, slots),
            CALL => self.call(node, slots),
            BIND => {
                let after = self.leaves(part(1), slots)?;
                let says = |held: &str| format!("it is {held} after its part, and gets Text");
                self.set(node, &after, part(0), TEXT_TYPE, says)
            }
            UPDATE => {
                let given = self.type_of(part(1), slots)?;
                let says = |held: &str| {
                    let given = type_name(given);
                    format!("it is {held} already, and gets {given}")
                };
                self.set(node, slots, part(0), given, says)
            }
            _ => match self.type_of(part(0), slots)? {
                BOOL_TYPE => Some(*slots),
                found => {
                    let found = type_name(found);
                    self.fail(node, format!("its expression is {found}, Bool was wanted"))
                }
            },
        }
    }

    /// "an unset slot takes the type; a set one must have it already"
    fn set(
        &mut self,
        node: usize,
        slots: &Slots,
        slot: usize,
        given: u16,
        says: impl Fn(&str) -> String,
    ) -> Option<Slots> {
        let held = slots[slot];
        if held != 0 && held != given {
            return self.fail(node, says(type_name(held)));
        }
        let mut after = *slots;
        after[slot] = given;
        Some(after)
    }

    fn choice(&mut self, node: usize, slots: &Slots) -> Option<Slots> {
        let first = self.leaves(self.table.part(node, 0), slots);
        let second = self.leaves(self.table.part(node, 1), slots);
        let (first, second) = (first?, second?);
        let says = differences(&first, &second, |slot, one, other| {
            format!("the first arm leaves slot {slot} {one}, the second leaves it {other}")
        });
        match says {
            None => Some(first),
            Some(says) => self.fail(node, says),
        }
    }

    fn unchanged(&mut self, node: usize, slots: &Slots) -> Option<Slots> {
        let after = self.leaves(self.table.part(node, 0), slots)?;
        let says = differences(slots, &after, |slot, one, other| {
            let set = if one == type_name(0) { ": set it before" } else { "" };
            format!("slot {slot} is {one} before its part and {other} after it{set}")
        });
        match says {
            None => Some(after),
            Some(says) => self.fail(node, says),
        }
    }

    fn call(&mut self, node: usize, slots: &Slots) -> Option<Slots> {
        let table = self.table;
        let callee = table.part(node, 0);
        let arguments: Vec<Option<u16>> = (0..table.inherited(callee))
            .map(|index| self.type_of(table.argument(node, index), slots))
            .collect();
        let arguments: Vec<u16> = arguments.into_iter().collect::<Option<_>>()?;
        for (index, &found) in arguments.iter().enumerate() {
            let wanted = table.inherited_type(callee, index);
            if found != wanted {
                let [found, wanted] = [found, wanted].map(type_name);
                let argument = index + 1;
                let says = format!(
                    "argument {argument} is {found}, rule {callee} inherits {wanted} there"
                );
                return self.fail(node, says);
            }
        }
        let mut after = *slots;
        for index in 0..table.returned(callee) {
            let (slot, given) = (
                table.receiver(node, index),
                table.returned_type(callee, index),
            );
            let says = |held: &str| {
                let (receiver, given) = (index + 1, type_name(given));
                format!("receiving slot {receiver}, slot {slot}, is {held}, rule {callee} returns {given} there")
            };
            after = self.set(node, &after, slot, given, says)?;
        }
        Some(after)
    }

    fn type_of(&mut self, node: usize, slots: &Slots) -> Option<u16> {
        let table = self.table;
        match table.kind(node) {
            BOOL => Some(BOOL_TYPE),
            INTEGER => Some(INTEGER_TYPE),
            TEXT => Some(TEXT_TYPE),
            SLOT => match slots[table.part(node, 0)] {
                0 => self.fail(
                    node,
                    format!("slot {} is unset here", table.part(node, 0)),
                ),
                held => Some(held),
            },
            LOGIC_NOT => match self.type_of(table.part(node, 0), slots)? {
                BOOL_TYPE => Some(BOOL_TYPE),
                found => {
                    let found = type_name(found);
                    self.fail(node, format!("its operand is {found}, Bool was wanted"))
                }
            },
            _ => self.binary(node, slots),
        }
    }

    fn binary(&mut self, node: usize, slots: &Slots) -> Option<u16> {
        let left = self.type_of(self.table.part(node, 0), slots);
        let right = self.type_of(self.table.part(node, 1), slots);
        let (left, right) = (left?, right?);
        let (right_types, wanted, given) = match self.table.kind(node) {
            EQUAL => (left == right, "two of one type", BOOL_TYPE),
            AND | OR => (
                left == BOOL_TYPE && right == BOOL_TYPE,
                "two Bools",
                BOOL_TYPE,
            ),
            kind => {
                let given = if kind == GREATER {
                    BOOL_TYPE
                } else {
                    INTEGER_TYPE
                };
                let both = left == INTEGER_TYPE && right == INTEGER_TYPE;
                (both, "two Integers", given)
            }
        };
        if right_types {
            return Some(given);
        }
        let [left, right] = [left, right].map(type_name);
        self.fail(
            node,
            format!("its operands are {left} and {right}, {wanted} were wanted"),
        )
    }
}

/// What is said of each slot that is not of one type in both.
fn differences(
    one: &Slots,
    other: &Slots,
    says: impl Fn(usize, &str, &str) -> String,
) -> Option<String> {
    let differing = (0..SLOTS).filter(|&slot| one[slot] != other[slot]);
    let said: Vec<String> = differing
        .map(|slot| says(slot, type_name(one[slot]), type_name(other[slot])))
        .collect();
    (!said.is_empty()).then(|| said.join("; "))
}
