//! Tables smaller by a rule, a node, a value or a literal byte.

use super::shrink::Smaller;
use crate::random::draft::Draft;
use crate::reference::table::*;

/// The boldest first.
pub fn smaller_tables(draft: &Draft) -> Smaller<'_, Draft> {
    let rules = 0..draft.rules.len();
    let nodes = 0..draft.nodes.len();
    let fewer_rules = rules.clone().rev().map(|rule| without_rule(draft, rule));
    let fewer_nodes = nodes.rev().flat_map(|node| simpler_node(draft, node));
    let fewer_values = rules.flat_map(|rule| {
        let fewer = [
            without_inherited(draft, rule),
            without_returned(draft, rule),
        ];
        fewer.into_iter().flatten()
    });
    Box::new(
        fewer_rules
            .chain(fewer_nodes)
            .chain(fewer_unused(draft))
            .chain(fewer_values)
            .chain(without_literal(draft)),
    )
}

/// Calls of the rule become empty ones.
fn without_rule(draft: &Draft, rule: usize) -> Draft {
    let mut other = draft.clone();
    for node in &mut other.nodes {
        if node[0] != CALL {
            continue;
        }
        if node[1] as usize == rule {
            *node = leaf(EMPTY);
        } else if node[1] as usize > rule {
            node[1] -= 1;
        }
    }
    other.rules.remove(rule);
    without_unused(&other)
}

fn leaf(kind: u16) -> [u16; NODE_WORDS] {
    let mut record = [0; NODE_WORDS];
    record[0] = kind;
    record
}

/// A node's part in its place, or something that has no parts.
fn simpler_node(draft: &Draft, node: usize) -> Vec<Draft> {
    let mut all: Vec<Draft> = draft
        .parts(node)
        .into_iter()
        .map(|part| with_part_instead(draft, node, part))
        .collect();
    let mut other = draft.clone();
    other.nodes[node] = match sort_of_kind(draft.nodes[node][0]) {
        Some(Sort::Expression) => leaf(BOOL),
        _ => leaf(EMPTY),
    };
    all.push(other);
    all.retain(|other| other != draft);
    all.into_iter()
        .flat_map(|other| [without_unused(&other), other])
        .collect()
}

/// An expression takes the place of a parsing node inside an update.
fn with_part_instead(draft: &Draft, node: usize, part: usize) -> Draft {
    let mut other = draft.clone();
    let sort = |node: usize| draft.nodes.get(node).and_then(|node| sort_of_kind(node[0]));
    if sort(node) == Some(Sort::Parsing) && sort(part) == Some(Sort::Expression) {
        other.nodes[node] = leaf(UPDATE);
        other.nodes[node][2] = part as u16;
        return other;
    }
    other.renumber(|old| {
        if old as usize == node {
            part as u16
        } else {
            old
        }
    });
    other
}

/// Drops the nodes no rule comes to.
fn without_unused(draft: &Draft) -> Draft {
    keeping(draft, &reached(draft))
}

fn reached(draft: &Draft) -> Vec<bool> {
    let mut reached = vec![false; draft.nodes.len()];
    let rules = 0..draft.rules.len();
    let mut due: Vec<usize> = rules.flat_map(|rule| draft.used_by_rule(rule)).collect();
    while let Some(node) = due.pop() {
        if node < reached.len() && !reached[node] {
            reached[node] = true;
            due.extend(draft.parts(node));
        }
    }
    reached
}

fn keeping(draft: &Draft, kept: &[bool]) -> Draft {
    let mut new = vec![0];
    for (node, &kept) in kept.iter().enumerate() {
        new.push(new[node] + kept as u16);
    }
    let mut other = draft.clone();
    other.renumber(|old| new[(old as usize).min(kept.len())]);
    let mut keeps = kept.iter();
    other.nodes.retain(|_| *keeps.next().unwrap_or(&true));
    other
}

/// For a difference in USE: one unused node less, the others stay.
fn fewer_unused(draft: &Draft) -> Smaller<'_, Draft> {
    let reached = reached(draft);
    let nodes = 0..reached.len();
    Box::new(nodes.filter_map(move |node| {
        let mut kept = vec![true; reached.len()];
        kept[node] = false;
        (!reached[node]).then(|| keeping(draft, &kept))
    }))
}

fn without_literal(draft: &Draft) -> Option<Draft> {
    let mut other = draft.clone();
    other.literals.pop()?;
    Some(other)
}

/// Without the last of a rule's inherited.
fn without_inherited(draft: &Draft, rule: usize) -> Option<Draft> {
    let mut other = draft.clone();
    let fewer = draft.rules[rule][1]
        .checked_sub(1)
        .filter(|&fewer| fewer < 4)?;
    other.rules[rule][1] = fewer;
    other.rules[rule][2 + fewer as usize] = 0;
    clear_in_calls(&mut other, rule, 2 + fewer as usize);
    Some(without_unused(&other))
}

/// Without the last of a rule's returned nodes.
fn without_returned(draft: &Draft, rule: usize) -> Option<Draft> {
    let mut other = draft.clone();
    let fewer = draft.rules[rule][6]
        .checked_sub(1)
        .filter(|&fewer| fewer < 4)?;
    other.rules[rule][6] = fewer;
    other.rules[rule][7 + fewer as usize] = 0;
    other.rules[rule][11 + fewer as usize] = 0;
    clear_in_calls(&mut other, rule, 6 + fewer as usize);
    Some(without_unused(&other))
}

fn clear_in_calls(draft: &mut Draft, rule: usize, word: usize) {
    for node in &mut draft.nodes {
        if node[0] == CALL && node[1] as usize == rule {
            node[word] = 0;
        }
    }
}
