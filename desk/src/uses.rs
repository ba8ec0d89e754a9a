//! USE in words: who uses the node.

use super::names::ordinal;
use super::page::Page;
use reader_tests::reference::table::{wants, Want};

/// How many other nodes are told beside the verdict's.
const MOST: usize = 8;

/// Nothing where the node is used exactly once. A wrong part number makes two
/// nodes wrong, one without a user and one with two, so the others follow. The
/// fields of the table are right, since FIELD comes before USE.
pub fn advice(page: &Page, node: usize) -> Option<String> {
    if node >= page.table.nodes() {
        return None;
    }
    let first = misuse(page, node)?;
    let others = (0..page.table.nodes()).filter(|&other| other != node);
    let others: Vec<String> = others.filter_map(|other| misuse(page, other)).collect();
    let mut lines = vec![first];
    lines.extend(others.iter().take(MOST).cloned());
    if others.len() > MOST {
        lines.push(format!("and {} nodes more", others.len() - MOST));
    }
    Some(lines.join("\n"))
}

/// What is wrong with the uses of a node, if anything is.
fn misuse(page: &Page, node: usize) -> Option<String> {
    let users = users(page, node);
    let what = page.node(node);
    match users.len() {
        0 => Some(format!(
            "{what}: nobody uses it; each node is a part, an operand, an argument, a body or a returned node, exactly once"
        )),
        1 => None,
        count => Some(format!(
            "{what}: it is used {count} times, and must be once: {}",
            users.join("; ")
        )),
    }
}

/// Each word that names the node is a use.
fn users(page: &Page, node: usize) -> Vec<String> {
    let table = &page.table;
    let mut users = Vec::new();
    for rule in 0..table.rules() {
        if table.body(rule) == node {
            users.push(format!("the body of {}", page.rule(rule)));
        }
        for index in 0..table.returned(rule) {
            if table.returned_node(rule, index) == node {
                users.push(format!(
                    "returned node {} of {}",
                    index + 1,
                    page.rule(rule)
                ));
            }
        }
    }
    for user in 0..table.nodes() {
        let wants = wants(table.kind(user));
        for (field, &want) in wants.iter().enumerate() {
            if table.part(user, field) == node && names_a_node(page, user, want) {
                let number = ordinal(field + 2);
                users.push(format!("the {number} number of {}", page.node(user)));
            }
        }
    }
    users
}

/// A part, or an argument that the callee has.
fn names_a_node(page: &Page, user: usize, want: Want) -> bool {
    let table = &page.table;
    match want {
        Want::Part(_) => true,
        Want::Argument(index) => index < table.inherited(table.part(user, 0)),
        _ => false,
    }
}
