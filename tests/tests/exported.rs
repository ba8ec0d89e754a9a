//! What the exported functions' words stand for: nothing that has no row passes for something that has.

use reader_tests::exported::{part, read_answer, record, value, write_answer};
use reader_tests::subject::*;

fn text(home: Home, start: u32, length: u32) -> Value {
    Value::Text(Span {
        home,
        start,
        length,
    })
}

#[test]
fn every_value() {
    for (tag, payload, wanted) in [
        (0, 0, Value::Absent),
        (1, 0, Value::Bool(false)),
        (1, 1, Value::Bool(true)),
        (2, 0, Value::Integer(0)),
        (2, u32::MAX, Value::Integer(-1)),
        (3, 65_537, text(Home::Message, 1, 1)),
        (4, u32::MAX, text(Home::Literals, 65_535, 65_535)),
    ] {
        assert_eq!(value(tag, payload), wanted);
    }
}

/// "a Bool payload other than 0 and 1", a payload of nothing, a tag without a row.
#[test]
fn words_that_stand_for_no_value() {
    for (tag, payload) in [
        (0, 1),
        (0, u32::MAX),
        (1, 2),
        (1, 256),
        (1, 65_536),
        (1, u32::MAX),
        (5, 0),
        (256, 0),
        (u32::MAX, 1),
    ] {
        let came = value(tag, payload);
        assert_eq!(came, Value::Stray { tag, payload });
        for known in [Value::Absent, Value::Bool(false), Value::Bool(true)] {
            assert_ne!(came, known);
        }
    }
}

#[test]
fn a_record_with_a_stray_value_is_no_answer_of_the_reference() {
    let mut twelve = [0, 0, 1, 2, 1, 1, 0, 0, 0, 0, 0, 0];
    let right = record(&twelve);
    assert_eq!(right.values[0], Value::Bool(true));
    twelve[5] = 3;
    assert_ne!(record(&twelve), right);
}

#[test]
fn numbers_past_thirty_two_bits_are_no_answer() {
    let past = 1 << 32;
    assert_eq!(read_answer(&[0, 0, 48, 2]).number, 0);
    assert_eq!(read_answer(&[past, 0, 48, 2]).number, u32::MAX);
    assert_eq!(read_answer(&[20, past + 3, 0, 0]).line, u32::MAX);
    assert_eq!(write_answer(&[0, 0, 138, 0]).number, 0);
    for answer in [[past, 0, 138, 0], [0, 1, 138, 0], [0, 0, 138, 1]] {
        assert_eq!(write_answer(&answer).number, u32::MAX);
    }
}

#[test]
fn bits_above_a_part_are_no_part() {
    let at = |home, start, length| Span {
        home,
        start,
        length,
    };
    assert_eq!(part(65_537), at(Home::Message, 1, 1));
    assert_eq!(part(1 << 32 | 65_537), at(Home::Literals, 1, 1));
    for word in [2 << 32 | 65_537, 1 << 63, u64::MAX] {
        assert_eq!(part(word).start, u32::MAX);
    }
}
