//! Type check: "Type rules".
//!
//! Readings chosen here:
//! - "leave the same slots" is the equality of figure 4.43a: the same slots set,
//!   each to the same type.
//! - Not has one rule (the 2nd solution of figure 4.52), also over another not.
//! - "updated left to right": a receiving slot named twice takes the first
//!   type, and the second must be that type.
//! - The rules are tried in order, each against all the declared types.

use super::check::check;
use super::table::*;
use crate::numbers::{DONE, TYPE};

/// 0 is unset.
type SlotTypes = [u16; SLOTS];

pub fn type_check(words: &[u16], literals: &[u8]) -> (u32, u32) {
    let answer = check(words, literals);
    if answer.0 != DONE {
        return answer;
    }
    let table = Table { words, literals };
    match (0..table.rules()).find(|&rule| !rule_passes(&table, rule)) {
        Some(rule) => (TYPE, rule as u32),
        None => (DONE, 0),
    }
}

pub fn rule_passes(table: &Table, rule: usize) -> bool {
    let mut slots = [0; SLOTS];
    for (index, slot) in slots.iter_mut().enumerate().take(table.inherited(rule)) {
        *slot = table.inherited_type(rule, index);
    }
    passes(table, table.body(rule), &mut slots)
        && (0..table.returned(rule)).all(|index| {
            let declared = table.returned_type(rule, index);
            type_of(table, table.returned_node(rule, index), &slots) == Some(declared)
        })
}

/// Whether a parsing node passes; `slots` become what it leaves.
fn passes(table: &Table, node: usize, slots: &mut SlotTypes) -> bool {
    let part = |field: usize| table.part(node, field);
    match table.kind(node) {
        EMPTY | TERMINAL => true,
        SEQUENCE => passes(table, part(0), slots) && passes(table, part(1), slots),
        CHOICE => choice_passes(table, node, slots),
        REPEAT | NOT => {
            let start = *slots;
            passes(table, part(0), slots) && *slots == start
        }
        CALL => call_passes(table, node, slots),
        BIND => passes(table, part(1), slots) && update(slots, part(0), TEXT_TYPE),
        UPDATE => match type_of(table, part(1), slots) {
            Some(given) => update(slots, part(0), given),
            None => false,
        },
        _ => type_of(table, part(0), slots) == Some(BOOL_TYPE),
    }
}

/// "an unset slot takes the type; a set one must have it already"
fn update(slots: &mut SlotTypes, slot: usize, given: u16) -> bool {
    if slots[slot] == 0 {
        slots[slot] = given;
    }
    slots[slot] == given
}

fn choice_passes(table: &Table, node: usize, slots: &mut SlotTypes) -> bool {
    let mut other = *slots;
    passes(table, table.part(node, 0), slots)
        && passes(table, table.part(node, 1), &mut other)
        && *slots == other
}

fn call_passes(table: &Table, node: usize, slots: &mut SlotTypes) -> bool {
    let callee = table.part(node, 0);
    let arguments = (0..table.inherited(callee)).all(|index| {
        let wanted = table.inherited_type(callee, index);
        type_of(table, table.argument(node, index), slots) == Some(wanted)
    });
    arguments
        && (0..table.returned(callee)).all(|index| {
            let given = table.returned_type(callee, index);
            update(slots, table.receiver(node, index), given)
        })
}

fn type_of(table: &Table, node: usize, slots: &SlotTypes) -> Option<u16> {
    let both = |wanted: u16, given: u16| {
        let left = type_of(table, table.part(node, 0), slots)?;
        let right = type_of(table, table.part(node, 1), slots)?;
        (left == wanted && right == wanted).then_some(given)
    };
    match table.kind(node) {
        BOOL => Some(BOOL_TYPE),
        INTEGER => Some(INTEGER_TYPE),
        TEXT => Some(TEXT_TYPE),
        SLOT => Some(slots[table.part(node, 0)]).filter(|&held| held != 0),
        ADD | SUBTRACT | MULTIPLY | DIVIDE => both(INTEGER_TYPE, INTEGER_TYPE),
        GREATER => both(INTEGER_TYPE, BOOL_TYPE),
        AND | OR => both(BOOL_TYPE, BOOL_TYPE),
        EQUAL => {
            let left = type_of(table, table.part(node, 0), slots)?;
            let right = type_of(table, table.part(node, 1), slots)?;
            (left == right).then_some(BOOL_TYPE)
        }
        _ => type_of(table, table.part(node, 0), slots).filter(|&held| held == BOOL_TYPE),
    }
}
