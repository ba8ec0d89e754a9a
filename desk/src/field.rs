//! FIELD in words: the word's record and field, its line, what stands there and
//! what was wanted.

use super::names::{kind_name, kinds_of, ordinal, some, sort_name};
use super::page::Page;
use reader_tests::reference::table::*;

/// Nothing where the word breaks no rule.
pub fn advice(page: &Page, word: usize) -> Option<String> {
    let table = &page.table;
    let first_node = table.node_place(0);
    if !(3..table.words.len()).contains(&word) {
        return None;
    }
    let (what, line, column, wanted) = if word < first_node {
        let (rule, column) = ((word - 3) / RULE_WORDS, (word - 3) % RULE_WORDS);
        let what = format!("{} of rule {rule}", rule_word(column));
        let wanted = wanted_of_rule(table, rule, column)?;
        (what, page.rule_line(rule), column, wanted)
    } else {
        let from = word - first_node;
        let (node, column) = (from / NODE_WORDS, from % NODE_WORDS);
        let wanted = wanted_of_node(table, node, column)?;
        let what = node_word(table, node, column);
        (what, page.node_line(node), column, wanted)
    };
    let moved = if names_a_node(table, word) { MOVED } else { "" };
    Some(format!(
        "word {word} is {what}, line {line} of the file, the {} number there: {} stands there; {wanted}{moved}",
        ordinal(column + 1),
        table.words[word],
    ))
}

/// A line that was put in or taken out shows first where its neighbours are named,
/// which may be far from it.
const MOVED: &str =
    "\n(was a line put in or taken out? then the nodes behind it have other numbers, in every line that names them)";

/// Whether a number of a node stands there.
fn names_a_node(table: &Table, word: usize) -> bool {
    let first_node = table.node_place(0);
    if word < first_node {
        return matches!((word - 3) % RULE_WORDS, 0 | 7..=10);
    }
    let (node, column) = (
        (word - first_node) / NODE_WORDS,
        (word - first_node) % NODE_WORDS,
    );
    column > 0
        && matches!(
            wants(table.kind(node))[column - 1],
            Want::Part(_) | Want::Argument(_)
        )
}

fn rule_word(column: usize) -> String {
    match column {
        0 => "the body".to_string(),
        1 => "n, how many are inherited,".to_string(),
        2..=5 => format!("the type of inherited {}", column - 1),
        6 => "m, how many are returned,".to_string(),
        7..=10 => format!("returned node {}", column - 6),
        _ => format!("the type of returned {}", column - 10),
    }
}

fn node_word(table: &Table, node: usize, column: usize) -> String {
    let kind = table.kind(node);
    match column {
        0 => format!("the kind of node {node}"),
        _ => format!(
            "field {} of node {node} (kind {kind}, {})",
            letter(column - 1),
            kind_name(kind)
        ),
    }
}

/// Fields are a, b, and so on to i.
fn letter(field: usize) -> char {
    char::from(b'a' + field as u8)
}

/// What was wanted, where something else stands there.
fn wanted_of_rule(table: &Table, rule: usize, column: usize) -> Option<String> {
    let value = table.rule_word(rule, column);
    let (n, m) = (table.inherited(rule), table.returned(rule));
    match column {
        0 => not_of_sort(table, value, Sort::Parsing),
        1 | 6 => unless(value as usize <= FOUR, || "0 to 4 was wanted".to_string()),
        2..=5 if column - 2 < n => not_a_type(value),
        7..=10 if column - 7 < m => not_of_sort(table, value, Sort::Expression),
        11..=14 if column - 11 < m => not_a_type(value),
        2..=5 => unused(value, &format!("the rule inherits {n}")),
        _ => unused(value, &format!("the rule returns {m}")),
    }
}

fn unless(right: bool, wanted: impl Fn() -> String) -> Option<String> {
    (!right).then(wanted)
}

fn not_a_type(value: u16) -> Option<String> {
    unless((BOOL_TYPE..=TEXT_TYPE).contains(&value), || {
        "a type was wanted: 1 Bool, 2 Integer, 3 Text".to_string()
    })
}

fn unused(value: u16, why: &str) -> Option<String> {
    unless(value == 0, || format!("0 was wanted, since {why}"))
}

fn not_of_sort(table: &Table, value: u16, sort: Sort) -> Option<String> {
    let why = not_there_or_other(table, value, sort)?;
    Some(format!("{} was wanted, and {why}", sort_name(sort)))
}

/// Why a number is no node of a sort.
fn not_there_or_other(table: &Table, value: u16, sort: Sort) -> Option<String> {
    let node = value as usize;
    if node >= table.nodes() {
        let nodes = some(table.nodes(), "node");
        return Some(format!("there is no node {node} (the table has {nodes})"));
    }
    let kind = table.kind(node);
    match table.sort(node) {
        Some(found) if found == sort => None,
        Some(found) => Some(format!(
            "node {node} is {} (kind {kind}, {})",
            sort_name(found),
            kind_name(kind)
        )),
        None => Some(format!("node {node} has kind {kind}, which there is not")),
    }
}

fn wanted_of_node(table: &Table, node: usize, column: usize) -> Option<String> {
    let kind = table.kind(node);
    if column == 0 {
        return unless(sort_of_kind(kind).is_some(), || {
            format!(
                "a kind was wanted: of a parsing node {}; of an expression {}",
                kinds_of(Sort::Parsing),
                kinds_of(Sort::Expression)
            )
        });
    }
    let field = column - 1;
    match wants(kind)[field] {
        Want::Part(sort) => not_a_part(table, node, table.field(node, field), sort),
        Want::Argument(index) => wanted_argument(table, node, index),
        Want::Receiver(index) => wanted_receiver(table, node, index),
        want => wanted_number(table, node, field, want),
    }
}

fn not_a_part(table: &Table, node: usize, value: u16, sort: Sort) -> Option<String> {
    let part = value as usize;
    if node == 0 {
        let wanted = "another kind, or another number for the node, was wanted";
        return Some(format!(
            "{wanted}: parts have smaller numbers than their node, so node 0 can have none"
        ));
    }
    let why = match not_there_or_other(table, value, sort) {
        Some(why) => why,
        None if part == node => "that is the node itself".to_string(),
        None if part > node => format!("{part} is not smaller than {node}"),
        None => return None,
    };
    let wanted = format!("{} with a number under {node} was wanted", sort_name(sort));
    Some(format!("{wanted}, and {why}"))
}

fn wanted_argument(table: &Table, node: usize, index: usize) -> Option<String> {
    let callee = callee(table, node)?;
    let (n, value) = (table.inherited(callee), table.field(node, 1 + index));
    if index >= n {
        return unused(value, &format!("rule {callee} inherits {n}"));
    }
    let wanted = not_a_part(table, node, value, Sort::Expression)?;
    Some(format!(
        "argument {} of rule {callee}, which inherits {n}: {wanted}",
        index + 1
    ))
}

fn wanted_receiver(table: &Table, node: usize, index: usize) -> Option<String> {
    let callee = callee(table, node)?;
    let (m, value) = (table.returned(callee), table.field(node, 5 + index));
    if index >= m {
        return unused(value, &format!("rule {callee} returns {m}"));
    }
    unless((value as usize) < SLOTS, || {
        format!(
            "receiving slot {} of rule {callee}, which returns {m}: a slot, 0 to 15, was wanted",
            index + 1
        )
    })
}

/// The rule that a call calls, if it is there.
fn callee(table: &Table, node: usize) -> Option<usize> {
    Some(table.part(node, 0)).filter(|&rule| rule < table.rules())
}

fn wanted_number(table: &Table, node: usize, field: usize, want: Want) -> Option<String> {
    let value = table.part(node, field);
    let literals = table.literals.len();
    let bytes = some(literals, "literal byte");
    match want {
        Want::Byte => unless(value <= 255, || "a byte, 0 to 255, was wanted".to_string()),
        Want::Bit => unless(value <= 1, || {
            "0 (false) or 1 (true) was wanted".to_string()
        }),
        Want::Slot => unless(value < SLOTS, || "a slot, 0 to 15, was wanted".to_string()),
        Want::Rule => unless(value < table.rules(), || {
            let rules = some(table.rules(), "rule");
            format!("a rule was wanted, and there is no rule {value} (the table has {rules})")
        }),
        Want::TextStart => unless(value <= literals, || {
            format!("a start of at most {literals} was wanted (the table has {bytes})")
        }),
        Want::TextLength => {
            let start = table.part(node, 0);
            unless(start + value <= literals, || {
                let most = literals.saturating_sub(start);
                format!("a length of at most {most} was wanted (the start is {start}, and the table has {bytes})")
            })
        }
        Want::Zero => {
            let kind = table.kind(node);
            let named = kind_name(kind);
            let why = format!("kind {kind}, {named}, does not use this field");
            unused(value as u16, &why)
        }
        _ => None,
    }
}
