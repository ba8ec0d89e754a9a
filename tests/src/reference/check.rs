//! Table check: SIZE, FIELD, USE, START.
//!
//! Readings chosen here:
//! - The place of FIELD is the word's number in the whole table, word 0 being R.
//! - A body or returned node may be any node of its sort; only parts and
//!   arguments must have a smaller number.
//! - A call of a rule that isn't there makes the rule field the bad word.
//! - "first such word" is judged record by record: a word that is only bad
//!   because of a later word (a part of the wrong sort) is still bad itself.

use super::table::{
    Sort, Table, Want, FOUR, MOST_LITERALS, MOST_NODES, MOST_RULES, NODE_WORDS, RULE_WORDS, SLOTS,
};
use crate::numbers::{DONE, FIELD, SIZE, START, USE};

pub fn check(words: &[u16], literals: &[u8]) -> (u32, u32) {
    if !size_is_right(words, literals) {
        return (SIZE, 0);
    }
    let table = Table { words, literals };
    if let Some(word) = first_bad_word(&table) {
        return (FIELD, word as u32);
    }
    if let Some(node) = first_misused_node(&table) {
        return (USE, node as u32);
    }
    if table.inherited(0) > 0 {
        return (START, 0);
    }
    (DONE, 0)
}

pub fn size_is_right(words: &[u16], literals: &[u8]) -> bool {
    if words.len() < 3 {
        return false;
    }
    let [rules, nodes, bytes] = [words[0], words[1], words[2]].map(usize::from);
    (1..=MOST_RULES).contains(&rules)
        && (1..=MOST_NODES).contains(&nodes)
        && bytes <= MOST_LITERALS
        && words.len() == 3 + RULE_WORDS * rules + NODE_WORDS * nodes
        && literals.len() == bytes
}

fn first_bad_word(table: &Table) -> Option<usize> {
    let in_rules = (0..table.rules()).find_map(|rule| {
        let bad = (0..RULE_WORDS).find(|&word| !rule_word_is_right(table, rule, word));
        bad.map(|word| table.rule_place(rule) + word)
    });
    in_rules.or_else(|| (0..table.nodes()).find_map(|node| first_bad_in_node(table, node)))
}

fn rule_word_is_right(table: &Table, rule: usize, word: usize) -> bool {
    let value = table.rule_word(rule, word);
    let n = table.inherited(rule);
    let m = table.returned(rule);
    match word {
        0 => is_node_of(table, value, Sort::Parsing),
        1 | 6 => value as usize <= FOUR,
        2..=5 => in_use_or_zero(word - 2 < n, value, is_type(value)),
        7..=10 => in_use_or_zero(
            word - 7 < m,
            value,
            is_node_of(table, value, Sort::Expression),
        ),
        _ => in_use_or_zero(word - 11 < m, value, is_type(value)),
    }
}

/// "Places past n or m hold 0."
fn in_use_or_zero(in_use: bool, value: u16, right: bool) -> bool {
    if in_use {
        right
    } else {
        value == 0
    }
}

fn is_type(value: u16) -> bool {
    (1..=3).contains(&value)
}

fn is_node_of(table: &Table, value: u16, sort: Sort) -> bool {
    let node = value as usize;
    node < table.nodes() && table.sort(node) == Some(sort)
}

fn first_bad_in_node(table: &Table, node: usize) -> Option<usize> {
    let place = table.node_place(node);
    if table.sort(node).is_none() {
        return Some(place);
    }
    let wants = super::table::wants(table.kind(node));
    let bad = (0..9).find(|&field| !field_is_right(table, node, field, wants[field]));
    bad.map(|field| place + 1 + field)
}

fn field_is_right(table: &Table, node: usize, field: usize, want: Want) -> bool {
    let value = table.field(node, field);
    let literals = table.literals.len();
    match want {
        Want::Zero => value == 0,
        Want::Byte => value <= 255,
        Want::Bit => value <= 1,
        Want::AnyWord => true,
        Want::Slot => is_slot(value),
        Want::Part(sort) => is_part_of(table, node, value, sort),
        Want::Rule => (value as usize) < table.rules(),
        Want::Argument(index) => {
            let used = index < table.inherited(table.part(node, 0));
            in_use_or_zero(
                used,
                value,
                is_part_of(table, node, value, Sort::Expression),
            )
        }
        Want::Receiver(index) => {
            let used = index < table.returned(table.part(node, 0));
            in_use_or_zero(used, value, is_slot(value))
        }
        Want::TextStart => value as usize <= literals,
        Want::TextLength => table.part(node, 0) + value as usize <= literals,
    }
}

fn is_slot(value: u16) -> bool {
    (value as usize) < SLOTS
}

fn is_part_of(table: &Table, node: usize, value: u16, sort: Sort) -> bool {
    (value as usize) < node && is_node_of(table, value, sort)
}

/// "Each node is used exactly once: as a part, an argument, a body or a
/// returned node."
fn first_misused_node(table: &Table) -> Option<usize> {
    let mut uses = vec![0usize; table.nodes()];
    for used in all_uses(table) {
        uses[used] += 1;
    }
    uses.iter().position(|&count| count != 1)
}

fn all_uses(table: &Table) -> Vec<usize> {
    let mut used = Vec::new();
    for rule in 0..table.rules() {
        used.push(table.body(rule));
        used.extend((0..table.returned(rule)).map(|index| table.returned_node(rule, index)));
    }
    for node in 0..table.nodes() {
        used.extend(parts_of(table, node));
    }
    used
}

/// The parts and arguments of a node of a table whose fields are right.
pub fn parts_of(table: &Table, node: usize) -> Vec<usize> {
    let wants = super::table::wants(table.kind(node));
    let is_use = |field: &usize| match wants[*field] {
        Want::Part(_) => true,
        Want::Argument(index) => index < table.inherited(table.part(node, 0)),
        _ => false,
    };
    let fields = (0..9).filter(is_use);
    fields.map(|field| table.part(node, field)).collect()
}
