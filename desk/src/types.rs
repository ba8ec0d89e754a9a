//! TYPE in words: the rule, and the smallest node in it whose judgement fails.

use super::judgement::failure;
use super::page::Page;
use reader_tests::reference::table::{BIND, CALL, UPDATE};

/// Nothing where the rule passes.
pub fn advice(page: &Page, rule: usize) -> Option<String> {
    let table = &page.table;
    if rule >= table.rules() {
        return None;
    }
    let found = failure(table, rule)?;
    let first = table.part(found.node, 0);
    let of = match table.kind(found.node) {
        CALL => format!(" of rule {first}"),
        BIND | UPDATE => format!(" of slot {first}"),
        _ => String::new(),
    };
    let node = page.node(found.node);
    Some(format!("{}: {node}{of}: {}", page.rule(rule), found.says))
}
