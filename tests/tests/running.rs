//! Sentences of "Running" and "Type rules" that no bench case shows.

mod common;

use common::*;
use reader_tests::numbers::*;
use reader_tests::random::draft::Draft;
use reader_tests::reference::table::*;
use reader_tests::subject::Value;

/// x←0, then the node, returning x.
fn after_zero(mut draft: Draft, node: u16) -> Draft {
    let zero = set_integer(&mut draft, 0, 0);
    let body = draft.node(SEQUENCE, &[zero, node]);
    let slot = draft.node(SLOT, &[0]);
    draft.rule(body, &[], &[(slot, INTEGER_TYPE)]);
    draft
}

/// !(x←1): fails and hands on x=1.
fn failing_not(draft: &mut Draft) -> u16 {
    let inside = set_integer(draft, 0, 1);
    draft.node(NOT, &[inside])
}

#[test]
fn a_choice_gives_its_slots_to_both_arms() {
    let mut draft = Draft::default();
    let first = failing_not(&mut draft);
    let second = draft.node(EMPTY, &[]);
    let choice = draft.node(CHOICE, &[first, second]);
    let draft = after_zero(draft, choice);
    assert_eq!(display(&draft, b"", 99), done(0, 6, &[Value::Integer(0)]));
}

#[test]
fn a_repeat_stands_as_after_its_last_full_round() {
    let mut draft = Draft::default();
    let round = failing_not(&mut draft);
    let repeat = draft.node(REPEAT, &[round]);
    let draft = after_zero(draft, repeat);
    assert_eq!(display(&draft, b"", 99), done(0, 5, &[Value::Integer(0)]));
}

#[test]
fn not_over_a_failing_sequence_gives_back_the_slots() {
    let mut draft = Draft::default();
    let not = failing_not(&mut draft);
    let empty = draft.node(EMPTY, &[]);
    let sequence = draft.node(SEQUENCE, &[not, empty]);
    let outer = draft.node(NOT, &[sequence]);
    let draft = after_zero(draft, outer);
    assert_eq!(display(&draft, b"", 99), done(0, 6, &[Value::Integer(0)]));
}

#[test]
fn a_fault_is_no_failed_match() {
    let mut draft = Draft::default();
    let one = integer(&mut draft, 1);
    let zero = integer(&mut draft, 0);
    let quotient = draft.node(DIVIDE, &[one, zero]);
    let update = draft.node(UPDATE, &[1, quotient]);
    let other = set_integer(&mut draft, 1, 1);
    let body = draft.node(CHOICE, &[update, other]);
    draft.rule(body, &[], &[]);
    assert_eq!(display(&draft, b"", 99), ended(FAULT, quotient, 2));
}

#[test]
fn a_bind_holds_the_part_it_consumed() {
    let mut draft = Draft::default();
    let a = terminal(&mut draft, b'a');
    let rounds = draft.node(REPEAT, &[a]);
    let first = draft.node(BIND, &[0, rounds]);
    let empty = draft.node(EMPTY, &[]);
    let second = draft.node(BIND, &[1, empty]);
    let body = draft.node(SEQUENCE, &[first, second]);
    let all = draft.node(SLOT, &[0]);
    let none = draft.node(SLOT, &[1]);
    draft.rule(body, &[], &[(all, TEXT_TYPE), (none, TEXT_TYPE)]);
    let values = [of_message(0, 2), of_message(2, 0)];
    assert_eq!(display(&draft, b"aab", 99), done(2, 8, &values));
}

#[test]
fn texts_are_equal_by_their_bytes() {
    let mut draft = Draft {
        literals: b"xab".to_vec(),
        ..Draft::default()
    };
    let a = terminal(&mut draft, b'a');
    let b = terminal(&mut draft, b'b');
    let both = draft.node(SEQUENCE, &[a, b]);
    let body = draft.node(BIND, &[0, both]);
    let slot = draft.node(SLOT, &[0]);
    let text = draft.node(TEXT, &[1, 2]);
    let equal = draft.node(EQUAL, &[slot, text]);
    let nothing = draft.node(TEXT, &[3, 0]);
    let returned = [(equal, BOOL_TYPE), (nothing, TEXT_TYPE)];
    draft.rule(body, &[], &returned);
    let values = [Value::Bool(true), of_literals(3, 0)];
    assert_eq!(display(&draft, b"ab", 99), done(2, 4, &values));
}

/// Rule 1 takes two Integers and returns them the other way about.
fn swapping(receivers: [u16; 2]) -> Draft {
    let mut draft = Draft::default();
    let first = integer(&mut draft, 1);
    let second = integer(&mut draft, 2);
    let fields = [1, first, second, 0, 0, receivers[0], receivers[1]];
    let body = draft.node(CALL, &fields);
    let one = draft.node(SLOT, &[receivers[0]]);
    let other = draft.node(SLOT, &[receivers[1]]);
    draft.rule(body, &[], &[(one, INTEGER_TYPE), (other, INTEGER_TYPE)]);
    let inner = draft.node(EMPTY, &[]);
    let one = draft.node(SLOT, &[1]);
    let other = draft.node(SLOT, &[0]);
    let returned = [(one, INTEGER_TYPE), (other, INTEGER_TYPE)];
    draft.rule(inner, &[INTEGER_TYPE, INTEGER_TYPE], &returned);
    draft
}

#[test]
fn a_call_passes_and_receives() {
    let values = [2, 1].map(Value::Integer);
    assert_eq!(display(&swapping([3, 9]), b"", 9), done(0, 2, &values));
    let values = [1, 1].map(Value::Integer);
    assert_eq!(display(&swapping([5, 5]), b"", 9), done(0, 2, &values));
}

#[test]
fn an_argument_is_stuck_before_the_body_is_due() {
    let mut draft = swapping([3, 9]);
    draft.nodes[0] = [SLOT, 4, 0, 0, 0, 0, 0, 0, 0, 0];
    assert_eq!(type_check(&draft), (TYPE, 0));
    assert_eq!(bench(&draft, b"", 1), ended(STUCK, 0, 1));
}

#[test]
fn a_called_body_has_fresh_slots() {
    let mut draft = Draft::default();
    let first = set_integer(&mut draft, 0, 1);
    let call = draft.node(CALL, &[1, 0, 0, 0, 0, 1]);
    let body = draft.node(SEQUENCE, &[first, call]);
    draft.rule(body, &[], &[]);
    let inner = draft.node(EMPTY, &[]);
    let slot = draft.node(SLOT, &[0]);
    draft.rule(inner, &[], &[(slot, INTEGER_TYPE)]);
    assert_eq!(type_check(&draft), (TYPE, 1));
    assert_eq!(bench(&draft, b"", 99), ended(STUCK, slot, 4));
}

fn stuck_place(make: impl Fn(&mut Draft) -> u16) {
    let mut draft = Draft::default();
    let expected = make(&mut draft);
    let whole = draft.nodes.len() as u16 - 1;
    returning(&mut draft, whole, BOOL_TYPE);
    assert_eq!(type_check(&draft), (TYPE, 0));
    assert_eq!(bench(&draft, b"", 9), ended(STUCK, expected, 1));
}

fn over(draft: &mut Draft, kind: u16, left: u16, right: u16) -> u16 {
    draft.node(kind, &[left, right])
}

#[test]
fn operators_are_stuck_on_other_types() {
    for kind in [ADD, SUBTRACT, MULTIPLY, DIVIDE, EQUAL, GREATER, AND, OR] {
        for integer_first in [false, true] {
            stuck_place(|draft| {
                let decided = draft.node(BOOL, &[(kind == AND) as u16]);
                let zero = integer(draft, 0);
                match integer_first {
                    true => over(draft, kind, zero, decided),
                    false => over(draft, kind, decided, zero),
                }
            });
        }
    }
    stuck_place(|draft| {
        let zero = integer(draft, 0);
        draft.node(LOGIC_NOT, &[zero])
    });
}

#[test]
fn types_are_looked_at_after_the_operands() {
    stuck_place(|draft| {
        let held = draft.node(BOOL, &[1]);
        let unset = draft.node(SLOT, &[2]);
        over(draft, ADD, held, unset);
        unset
    });
    stuck_place(|draft| {
        let zero = integer(draft, 0);
        let unset = draft.node(SLOT, &[2]);
        over(draft, AND, zero, unset)
    });
}

#[test]
fn a_constraint_is_stuck_unless_bool() {
    let mut draft = Draft::default();
    let one = integer(&mut draft, 1);
    let body = draft.node(CONSTRAINT, &[one]);
    draft.rule(body, &[], &[]);
    assert_eq!(type_check(&draft), (TYPE, 0));
    assert_eq!(bench(&draft, b"", 9), ended(STUCK, body, 1));
}

#[test]
fn a_bind_is_judged_after_its_part() {
    for (literal, number) in [([INTEGER, 0], TYPE), ([TEXT, 0], DONE)] {
        let mut draft = Draft::default();
        let value = draft.node(literal[0], &literal[1..]);
        let inside = draft.node(UPDATE, &[0, value]);
        let body = draft.node(BIND, &[0, inside]);
        draft.rule(body, &[], &[]);
        assert_eq!(type_check(&draft), (number, 0));
        assert_eq!(bench(&draft, b"", 9), done(0, 2, &[]));
    }
}

#[test]
fn repeat_and_not_leave_the_slots() {
    for kind in [REPEAT, NOT] {
        let mut draft = Draft::default();
        let inside = set_integer(&mut draft, 0, 1);
        let body = draft.node(kind, &[inside]);
        draft.rule(body, &[], &[]);
        assert_eq!(type_check(&draft), (TYPE, 0));
    }
}

#[test]
fn the_smallest_failing_rule_is_told() {
    let mut draft = Draft::default();
    for kind in [BOOL, INTEGER, INTEGER] {
        let value = draft.node(kind, &[0]);
        let body = draft.node(CONSTRAINT, &[value]);
        draft.rule(body, &[], &[]);
    }
    assert_eq!(type_check(&draft), (TYPE, 1));
}
