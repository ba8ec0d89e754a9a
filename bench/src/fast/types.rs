//! "Type rules". The types of the sixteen slots are one number of two bits each, so that what a part leaves is compared and handed on as a number.

use super::table::*;
use reader_tests::numbers::{DONE, TYPE};
use reader_tests::reference::table::*;

/// Of a table that has passed the table check.
pub fn type_check(table: &Records) -> (u32, u32) {
    match table.rules.iter().position(|rule| !passes(table, rule)) {
        Some(rule) => (TYPE, rule as u32),
        None => (DONE, 0),
    }
}

/// The type of each slot, slot 0 lowest; 0 is unset.
type SlotTypes = u32;

fn passes(table: &Records, rule: &Rule) -> bool {
    let mut slots = 0;
    for index in 0..FOUR {
        // past n the types are 0
        slots |= u32::from(rule[INHERITED_TYPES + index]) << (2 * index);
    }
    let Some(left) = left_by(table, number(rule, BODY), slots) else {
        return false;
    };
    (0..number(rule, RETURNED)).all(|index| {
        let node = number(rule, RETURNED_NODES + index);
        type_of(table, node, left) == rule[RETURNED_TYPES + index]
    })
}

/// The slots that a parsing node leaves, if it passes.
fn left_by(table: &Records, node: usize, mut slots: SlotTypes) -> Option<SlotTypes> {
    let mut record = &table.nodes[node];
    while record[0] == SEQUENCE {
        slots = left_by(table, number(record, 1), slots)?;
        record = &table.nodes[number(record, 2)];
    }
    match record[0] {
        EMPTY | TERMINAL => Some(slots),
        CHOICE => {
            let left = left_by(table, number(record, 1), slots)?;
            let other = left_by(table, number(record, 2), slots)?;
            (left == other).then_some(left)
        }
        REPEAT | NOT => left_by(table, number(record, 1), slots).filter(|&left| left == slots),
        CALL => left_by_call(table, record, slots),
        BIND => {
            let left = left_by(table, number(record, 2), slots)?;
            update(left, record[1], TEXT_TYPE)
        }
        UPDATE => match type_of(table, number(record, 2), slots) {
            NO_TYPE => None,
            given => update(slots, record[1], given),
        },
        _ => (type_of(table, number(record, 1), slots) == BOOL_TYPE).then_some(slots),
    }
}

/// "an unset slot takes the type; a set one must have it already"
fn update(slots: SlotTypes, slot: u16, given: u16) -> Option<SlotTypes> {
    let given = u32::from(given) << (2 * slot);
    let held = slots & (3 << (2 * slot));
    (held == 0 || held == given).then_some(slots | given)
}

fn left_by_call(table: &Records, record: &Node, mut slots: SlotTypes) -> Option<SlotTypes> {
    let callee = &table.rules[number(record, 1)];
    for index in 0..number(callee, INHERITED) {
        let argument = number(record, ARGUMENTS + index);
        if type_of(table, argument, slots) != callee[INHERITED_TYPES + index] {
            return None;
        }
    }
    for index in 0..number(callee, RETURNED) {
        slots = update(
            slots,
            record[RECEIVERS + index],
            callee[RETURNED_TYPES + index],
        )?;
    }
    Some(slots)
}

/// Also what an unset slot has.
const NO_TYPE: u16 = 0;

/// The type of an expression, or none.
fn type_of(table: &Records, node: usize, slots: SlotTypes) -> u16 {
    let record = &table.nodes[node];
    let [kind, a, b, ..] = *record;
    let left = || type_of(table, usize::from(a), slots);
    let right = || type_of(table, usize::from(b), slots);
    let both = |wanted: u16, given: u16| given_if(left() == wanted && right() == wanted, given);
    match kind {
        BOOL => BOOL_TYPE,
        INTEGER => INTEGER_TYPE,
        TEXT => TEXT_TYPE,
        SLOT => (slots >> (2 * a) & 3) as u16,
        ADD..=DIVIDE => both(INTEGER_TYPE, INTEGER_TYPE),
        GREATER => both(INTEGER_TYPE, BOOL_TYPE),
        AND | OR => both(BOOL_TYPE, BOOL_TYPE),
        EQUAL => {
            let wanted = left();
            given_if(wanted != NO_TYPE && right() == wanted, BOOL_TYPE)
        }
        _ => given_if(left() == BOOL_TYPE, BOOL_TYPE),
    }
}

fn given_if(passes: bool, given: u16) -> u16 {
    if passes {
        given
    } else {
        NO_TYPE
    }
}
