//! SIZE, FIELD, USE, START: number and place.

mod common;

use common::*;
use reader_tests::numbers::*;
use reader_tests::random::draft::Draft;
use reader_tests::reference::table::*;
use reader_tests::subject::Subject;

#[test]
fn size() {
    let words = case_a().words();
    let check = |words: &[u16], literals: &[u8]| REFERENCE.check(words, literals);
    assert_eq!(check(&words, b""), (DONE, 0));
    assert_eq!(check(&words, b"x"), (SIZE, 0));
    assert_eq!(check(&words[..words.len() - 1], b""), (SIZE, 0));
    assert_eq!(check(&[&words[..], &[0]].concat(), b""), (SIZE, 0));
    for length in 0..3 {
        assert_eq!(check(&words[..length], b""), (SIZE, 0));
    }
    for (head, value) in [(0, 0), (0, 2), (1, 0), (1, 4), (2, 1), (0, 65), (1, 1025)] {
        let mut other = words.clone();
        other[head] = value;
        assert_eq!(check(&other, b""), (SIZE, 0));
    }
}

#[test]
fn the_greatest_sizes() {
    for (bytes, number) in [(4096, DONE), (4097, SIZE)] {
        let mut draft = case_a();
        draft.literals = vec![0; bytes];
        assert_eq!(check(&draft), (number, 0));
    }
    for (nodes, number) in [(1023, USE), (1024, USE), (1025, SIZE)] {
        let mut draft = case_a();
        draft.nodes.resize(nodes, [1, 0, 0, 0, 0, 0, 0, 0, 0, 0]);
        let place = if number == USE { 3 } else { 0 };
        assert_eq!(check(&draft), (number, place));
    }
}

/// All thirteen expression kinds, all ten parsing kinds, two rules.
fn everything() -> Draft {
    let mut draft = Draft {
        literals: b"abcd".to_vec(),
        ..Draft::default()
    };
    let mut parsing = vec![draft.node(EMPTY, &[])];
    for kind in [REPEAT, NOT] {
        let part = terminal(&mut draft, b'a');
        parsing.push(draft.node(kind, &[part]));
    }
    let part = terminal(&mut draft, b'b');
    parsing.push(draft.node(BIND, &[15, part]));
    let text = draft.node(TEXT, &[1, 3]);
    parsing.push(draft.node(UPDATE, &[2, text]));
    let slot = draft.node(SLOT, &[15]);
    let not = draft.node(LOGIC_NOT, &[slot]);
    parsing.push(draft.node(CONSTRAINT, &[not]));
    let mut sum = integer(&mut draft, -1);
    for kind in ADD..=OR {
        let held = draft.node(BOOL, &[1]);
        sum = draft.node(kind, &[sum, held]);
    }
    parsing.push(draft.node(CALL, &[1, sum, 0, 0, 0, 4, 5]));
    let mut body = parsing[0];
    for (index, &part) in parsing[1..].iter().enumerate() {
        let kind = if index % 2 == 0 { SEQUENCE } else { CHOICE };
        body = draft.node(kind, &[body, part]);
    }
    let values = [draft.node(BOOL, &[0]), draft.node(TEXT, &[4, 0])];
    draft.rule(body, &[], &[]);
    let inner = draft.node(EMPTY, &[]);
    let returned = [(values[0], BOOL_TYPE), (values[1], TEXT_TYPE)];
    draft.rule(inner, &[INTEGER_TYPE], &returned);
    draft
}

#[test]
fn everything_is_sound() {
    assert_eq!(check(&everything()), (DONE, 0));
}

fn node_of(draft: &Draft, kind: u16) -> usize {
    let found = draft.nodes.iter().position(|node| node[0] == kind);
    found.expect("a node of that kind")
}

/// Which values of a field in use are right, judged by the sentences anew.
fn right_values(draft: &Draft, node: usize, field: usize) -> Vec<u16> {
    let kind = draft.nodes[node][0];
    let smaller = |least: u16, most: u16| -> Vec<u16> {
        let of_sort = |other: &usize| (least..=most).contains(&draft.nodes[*other][0]);
        let nodes = (0..node).filter(of_sort);
        nodes.map(|other| other as u16).collect()
    };
    match (kind, field) {
        (2, 0) => (0..=255).collect(),
        (3 | 4, 0 | 1) | (5 | 6, 0) | (8, 1) => smaller(1, 10),
        (7, 0) => vec![1],
        (7, 1) | (9, 1) | (10 | 28, 0) | (20..=27, 0 | 1) => smaller(16, 28),
        (7, 5 | 6) | (8 | 9 | 19, 0) => (0..=15).collect(),
        (16, 0) => vec![0, 1],
        (17, 0 | 1) => (0..=65_535).collect(),
        (18, 0) => (0..=4).collect(),
        (18, 1) => (0..=4 - draft.nodes[node][1]).collect(),
        _ => vec![0],
    }
}

#[test]
fn every_field_of_every_kind() {
    let draft = everything();
    for kind in (1..=10).chain(16..=28) {
        let node = node_of(&draft, kind);
        for field in 0..9 {
            let right = right_values(&draft, node, field);
            for value in (0..300).chain([65_535]) {
                let mut other = draft.clone();
                other.nodes[node][1 + field] = value;
                let first = 3 + 15 * 2 + 10 * node as u32;
                let answer = check(&other);
                if right.contains(&value) {
                    let now = right_values(&other, node, 1);
                    let length_fits = kind != 18 || now.contains(&other.nodes[node][2]);
                    assert_eq!(answer.0 != FIELD, length_fits, "{kind} {field} {value}");
                } else if (kind, field) != (7, 0) || value > 1 {
                    assert_eq!(answer, (FIELD, first + 1 + field as u32));
                }
            }
        }
    }
}

#[test]
fn a_call_of_a_rule_of_other_counts() {
    let mut draft = everything();
    let call = node_of(&draft, CALL);
    draft.nodes[call][1] = 0;
    let first = 3 + 15 * 2 + 10 * call as u32;
    assert_eq!(check(&draft), (FIELD, first + 2));
}

#[test]
fn a_long_text() {
    let mut draft = everything();
    let text = node_of(&draft, TEXT);
    let first = 3 + 15 * 2 + 10 * text as u32;
    draft.nodes[text][1..3].copy_from_slice(&[5, 65_535]);
    assert_eq!(check(&draft), (FIELD, first + 1));
    draft.nodes[text][1..3].copy_from_slice(&[4, 65_535]);
    assert_eq!(check(&draft), (FIELD, first + 2));
}

#[test]
fn every_word_of_a_rule() {
    let draft = everything();
    let wrong = [
        (0, 0, 65_535),
        (0, 0, node_of(&draft, SLOT) as u16),
        (0, 1, 5),
        (0, 2, 1),
        (0, 6, 5),
        (0, 7, 1),
        (0, 11, 1),
        (1, 2, 0),
        (1, 2, 4),
        (1, 3, 2),
        (1, 7, node_of(&draft, NOT) as u16),
        (1, 8, 9_999),
        (1, 9, 1),
        (1, 11, 0),
        (1, 12, 4),
        (1, 13, 1),
        (1, 14, 65_535),
    ];
    for (rule, word, value) in wrong {
        let mut other = draft.clone();
        other.rules[rule][word] = value;
        let place = 3 + 15 * rule as u32 + word as u32;
        assert_eq!(check(&other), (FIELD, place));
    }
}

#[test]
fn counts_that_leave_places_open() {
    let draft = everything();
    for (word, value, bad) in [(1, 0, 2), (1, 2, 3), (6, 1, 8), (6, 3, 13), (6, 5, 6)] {
        let mut other = draft.clone();
        other.rules[1][word] = value;
        // A third returned node 0 would be a parsing node.
        let bad = if (word, value) == (6, 3) { 9 } else { bad };
        assert_eq!(check(&other), (FIELD, 3 + 15 + bad));
    }
}

#[test]
fn an_unknown_kind_is_of_no_sort() {
    let mut draft = case_a();
    draft.nodes[0][0] = 11;
    assert_eq!(check(&draft), (FIELD, 3 + 15));
    draft.nodes[0][0] = 2;
    draft.nodes[1][0] = 15;
    assert_eq!(check(&draft), (FIELD, 3));
}

#[test]
fn node_zero_of_unknown_kind_is_told_by_its_user() {
    let mut draft = nots(1);
    draft.nodes[0][0] = 0;
    assert_eq!(check(&draft), (FIELD, 3 + 15));
    draft.rules[0][0] = 0;
    assert_eq!(check(&draft), (FIELD, 3));
}

#[test]
fn uses() {
    let mut draft = case_a();
    draft.node(EMPTY, &[]);
    assert_eq!(check(&draft), (USE, 3));
    let mut draft = nots(3);
    draft.rules[0][0] = 2;
    assert_eq!(check(&draft), (USE, 2));
    draft.nodes[3][1] = 1;
    assert_eq!(check(&draft), (USE, 1));
    draft.nodes[2][1] = 0;
    assert_eq!(check(&draft), (USE, 0));
}

#[test]
fn start() {
    let mut draft = case_a();
    draft.rules[0][1] = 1;
    draft.rules[0][2] = 3;
    assert_eq!(check(&draft), (START, 0));
    assert_eq!(type_check(&draft), (START, 0));
    assert_eq!(bench(&draft, b"", 1), ended(START, 0, 0));
}
