//! The bench cases of document 01.

mod common;

use common::*;
use reader_tests::numbers::*;
use reader_tests::random::draft::Draft;
use reader_tests::reference::table::*;
use reader_tests::subject::{Record, Subject, Value};

#[test]
fn a_to_d_bind_a_terminal() {
    let a = case_a();
    assert_eq!(display(&a, b"G1", 2), done(1, 2, &[of_message(0, 1)]));
    assert_eq!(display(&a, b"", 2), ended(NOMATCH, 0, 2));
    assert_eq!(display(&a, b"G1", 1), ended(BUDGET, 0, 1));
    assert_eq!(display(&a, b"G1", 0), ended(BUDGET, 1, 0));
}

#[test]
fn e_updates_of_two_types() {
    let mut e = Draft::default();
    let first = set_integer(&mut e, 0, 1);
    let held = e.node(BOOL, &[1]);
    let second = e.node(UPDATE, &[0, held]);
    let body = e.node(SEQUENCE, &[first, second]);
    e.rule(body, &[], &[]);
    assert_eq!(type_check(&e), (TYPE, 0));
    assert_eq!(display(&e, b"", 9), ended(TYPE, 0, 0));
    assert_eq!(bench(&e, b"", 9), done(0, 3, &[]));
}

fn digit_arm(draft: &mut Draft, byte: u8, value: i32) -> u16 {
    let digit = terminal(draft, byte);
    let update = set_integer(draft, 0, value);
    draft.node(SEQUENCE, &[digit, update])
}

#[test]
fn f_arms_that_leave_the_same_slots() {
    let mut f = Draft::default();
    let first = digit_arm(&mut f, b'1', 1);
    let second = digit_arm(&mut f, b'2', 2);
    let body = f.node(CHOICE, &[first, second]);
    let slot = f.node(SLOT, &[0]);
    f.rule(body, &[], &[(slot, INTEGER_TYPE)]);
    assert_eq!(display(&f, b"2", 9), done(1, 6, &[Value::Integer(2)]));
}

#[test]
fn g_arms_that_leave_other_slots() {
    let mut g = Draft::default();
    let first = digit_arm(&mut g, b'1', 1);
    let second = terminal(&mut g, b'2');
    let body = g.node(CHOICE, &[first, second]);
    let slot = g.node(SLOT, &[0]);
    g.rule(body, &[], &[(slot, INTEGER_TYPE)]);
    assert_eq!(type_check(&g), (TYPE, 0));
    assert_eq!(bench(&g, b"2", 9), ended(STUCK, slot, 4));
}

#[test]
fn h_slots_after_not() {
    let mut h = Draft::default();
    let first = set_integer(&mut h, 0, 0);
    let inside = set_integer(&mut h, 0, 1);
    let once = h.node(NOT, &[inside]);
    let twice = h.node(NOT, &[once]);
    let body = h.node(SEQUENCE, &[first, twice]);
    let slot = h.node(SLOT, &[0]);
    h.rule(body, &[], &[(slot, INTEGER_TYPE)]);
    assert_eq!(display(&h, b"", 9), done(0, 5, &[Value::Integer(1)]));
}

#[test]
fn i_empty_repeated() {
    let mut i = Draft::default();
    let empty = i.node(EMPTY, &[]);
    let body = i.node(REPEAT, &[empty]);
    i.rule(body, &[], &[]);
    assert_eq!(display(&i, b"", 10), ended(BUDGET, empty, 10));
}

#[test]
fn j_rounds_that_consume_nothing() {
    let mut j = Draft::default();
    let first = set_integer(&mut j, 0, 0);
    let three = integer(&mut j, 3);
    let now = j.node(SLOT, &[0]);
    let greater = j.node(GREATER, &[three, now]);
    let guard = j.node(CONSTRAINT, &[greater]);
    let now = j.node(SLOT, &[0]);
    let one = integer(&mut j, 1);
    let sum = j.node(ADD, &[now, one]);
    let step = j.node(UPDATE, &[0, sum]);
    let round = j.node(SEQUENCE, &[guard, step]);
    let rounds = j.node(REPEAT, &[round]);
    let body = j.node(SEQUENCE, &[first, rounds]);
    let slot = j.node(SLOT, &[0]);
    j.rule(body, &[], &[(slot, INTEGER_TYPE)]);
    assert_eq!(display(&j, b"", 99), done(0, 14, &[Value::Integer(3)]));
}

fn arithmetic(kind: u16, left: i32, right: i32) -> (Record, u16) {
    let mut draft = Draft::default();
    let left = integer(&mut draft, left);
    let right = integer(&mut draft, right);
    let whole = draft.node(kind, &[left, right]);
    returning(&mut draft, whole, INTEGER_TYPE);
    (display(&draft, b"", 9), whole)
}

fn assert_fault(kind: u16, left: i32, right: i32) {
    let (record, node) = arithmetic(kind, left, right);
    assert_eq!(record, ended(FAULT, node, 1), "{left} {kind} {right}");
}

fn assert_result(kind: u16, left: i32, right: i32, result: i32) {
    let (record, _) = arithmetic(kind, left, right);
    assert_eq!(record, done(0, 1, &[Value::Integer(result)]));
}

#[test]
fn k_and_l_arithmetic() {
    assert_fault(ADD, 2_147_483_647, 1);
    assert_fault(SUBTRACT, i32::MIN, 1);
    assert_fault(MULTIPLY, 65_536, 32_768);
    assert_fault(DIVIDE, 1, 0);
    assert_fault(DIVIDE, i32::MIN, -1);
    assert_result(DIVIDE, -7, 2, -3);
    assert_result(DIVIDE, 7, -2, -3);
    assert_result(DIVIDE, -7, -2, 3);
    assert_result(MULTIPLY, -65_536, 32_768, i32::MIN);
    assert_result(SUBTRACT, 3, 5, -2);
}

#[test]
fn m_and_decided_by_its_left() {
    let mut m = Draft::default();
    let no = m.node(BOOL, &[0]);
    let one = integer(&mut m, 1);
    let zero = integer(&mut m, 0);
    let quotient = m.node(DIVIDE, &[one, zero]);
    let zero = integer(&mut m, 0);
    let equal = m.node(EQUAL, &[quotient, zero]);
    let both = m.node(AND, &[no, equal]);
    let body = m.node(CONSTRAINT, &[both]);
    m.rule(body, &[], &[]);
    assert_eq!(display(&m, b"", 9), ended(NOMATCH, 0, 1));
    m.nodes[both as usize][0] = OR;
    assert_eq!(display(&m, b"", 9), ended(FAULT, quotient, 1));
}

#[test]
fn n_choice_starts_over() {
    let mut n = Draft::default();
    let a = terminal(&mut n, b'a');
    let b = terminal(&mut n, b'b');
    let first = n.node(SEQUENCE, &[a, b]);
    let second = terminal(&mut n, b'a');
    let body = n.node(CHOICE, &[first, second]);
    n.rule(body, &[], &[]);
    assert_eq!(display(&n, b"ac", 9), done(1, 5, &[]));
}

#[test]
fn o_a_rule_that_calls_itself() {
    let mut o = Draft::default();
    let body = o.node(CALL, &[0]);
    o.rule(body, &[], &[]);
    assert_eq!(display(&o, b"", 257), ended(DEEP, body, 256));
    assert_eq!(display(&o, b"", 256), ended(BUDGET, body, 256));
}

#[test]
fn nots_at_the_greatest_depth() {
    assert_eq!(display(&nots(255), b"", 999), ended(NOMATCH, 0, 256));
    assert_eq!(display(&nots(254), b"", 999), done(0, 255, &[]));
    assert_eq!(display(&nots(256), b"", 999), ended(DEEP, 0, 256));
    assert_eq!(display(&nots(256), b"", 256), ended(BUDGET, 0, 256));
    assert_eq!(type_check(&nots(1023)), (DONE, 0));
    assert_eq!(check(&nots(1024)), (SIZE, 0));
}

#[test]
fn the_tallest_expressions() {
    let mut draft = Draft::default();
    let mut whole = draft.node(BOOL, &[1]);
    for _ in 0..1022 {
        whole = draft.node(LOGIC_NOT, &[whole]);
    }
    returning(&mut draft, whole, BOOL_TYPE);
    assert_eq!(display(&draft, b"", 9), done(0, 1, &[Value::Bool(true)]));
}

#[test]
fn the_longest_message() {
    let mut draft = Draft::default();
    let one = terminal(&mut draft, b'1');
    let body = draft.node(REPEAT, &[one]);
    draft.rule(body, &[], &[]);
    let message = vec![b'1'; 65_536];
    let all = done(65_535, 65_537, &[]);
    assert_eq!(display(&draft, &message[1..], u32::MAX), all);
    assert_eq!(display(&draft, &message, u32::MAX), ended(LONG, 0, 0));
    let mut short = [1; W - 1];
    let words = draft.words();
    let long = REFERENCE.run(false, &words, &[], &message, 9, &mut short);
    assert_eq!(long, ended(LONG, 0, 0));
}

#[test]
fn the_most_rules() {
    for (rules, number) in [(64, DONE), (65, SIZE)] {
        let mut draft = Draft::default();
        for _ in 0..rules {
            let body = draft.node(EMPTY, &[]);
            draft.rule(body, &[], &[]);
        }
        assert_eq!(type_check(&draft), (number, 0));
    }
}

#[test]
fn the_work_area() {
    let a = case_a();
    let words = a.words();
    let run = |work: &mut [u32]| REFERENCE.run(true, &words, &[], b"G", 2, work);
    let mut short = [5; W - 1];
    assert_eq!(run(&mut short), ended(WORK, 0, 0));
    assert_eq!(short, [5; W - 1]);
    let mut exact = [5; W];
    assert_eq!(run(&mut exact).number, DONE);
    assert_eq!(exact, [0; W]);
    let mut long = [5; W + 2];
    assert_eq!(run(&mut long).number, DONE);
    assert_eq!(long[..W], [0; W]);
    assert_eq!(long[W..], [5; 2]);
}
