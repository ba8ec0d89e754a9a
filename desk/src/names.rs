//! Document 01's names for what a table holds.

use reader_tests::reference::table::*;

/// With the article left out: "sequence", "add".
pub fn kind_name(kind: u16) -> &'static str {
    match kind {
        EMPTY => "empty",
        TERMINAL => "terminal",
        SEQUENCE => "sequence",
        CHOICE => "choice",
        REPEAT => "repeat",
        NOT | LOGIC_NOT => "not",
        CALL => "call",
        BIND => "bind",
        UPDATE => "update",
        CONSTRAINT => "constraint",
        BOOL => "Bool",
        INTEGER => "Integer",
        TEXT => "Text",
        SLOT => "slot",
        ADD => "add",
        SUBTRACT => "subtract",
        MULTIPLY => "multiply",
        DIVIDE => "divide",
        EQUAL => "equal",
        GREATER => "greater",
        AND => "and",
        OR => "or",
        _ => "unknown",
    }
}

/// 0 is unset.
pub fn type_name(held: u16) -> &'static str {
    match held {
        BOOL_TYPE => "Bool",
        INTEGER_TYPE => "Integer",
        TEXT_TYPE => "Text",
        _ => "unset",
    }
}

pub fn sort_name(sort: Sort) -> &'static str {
    match sort {
        Sort::Parsing => "a parsing node",
        Sort::Expression => "an expression",
    }
}

/// The kinds of a sort with their numbers.
pub fn kinds_of(sort: Sort) -> String {
    let of_sort = (0..=LOGIC_NOT).filter(|&kind| sort_of_kind(kind) == Some(sort));
    let named: Vec<String> = of_sort
        .map(|kind| format!("{kind} {}", kind_name(kind)))
        .collect();
    named.join(", ")
}

/// 1st, 2nd, and so on; a record has at most 15 numbers.
pub fn ordinal(number: usize) -> String {
    let end = match number {
        1 => "st",
        2 => "nd",
        3 => "rd",
        _ => "th",
    };
    format!("{number}{end}")
}

/// "1 rule", "3 rules".
pub fn some(count: usize, what: &str) -> String {
    let end = if count == 1 { "" } else { "s" };
    format!("{count} {what}{end}")
}
