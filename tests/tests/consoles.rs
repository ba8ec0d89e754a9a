//! The console, and the bytes of Texts.

mod common;

use common::*;
use reader_tests::subject::{Console, Home, Span, Subject, Value};

const CASE_A: &str = "mode=display
budget=2
message=4731
rules=1
nodes=3
literals=
rule=1 0 0 0 0 0 1 2 0 0 0 3 0 0 0
node=2 71 0 0 0 0 0 0 0 0
node=8 0 0 0 0 0 0 0 0 0
node=19 0 0 0 0 0 0 0 0 0
";

fn console(input: &str) -> String {
    let output = REFERENCE.respond(input.as_bytes()).expect("an output");
    String::from_utf8(output).expect("text")
}

fn prints(input: &str, heads: [u32; 4], values: [&str; 4]) {
    let [answer, place, consumed, visits] = heads;
    let mut expected =
        format!("answer={answer}\nplace={place}\nconsumed={consumed}\nvisits={visits}\n");
    for value in values {
        expected += &format!("value={value}\n");
    }
    assert_eq!(console(input), expected, "{input}");
}

const ABSENT: [&str; 4] = ["0"; 4];

#[test]
fn case_a_word_for_word() {
    let expected = "answer=0
place=0
consumed=1
visits=2
value=3 47
value=0
value=0
value=0
";
    assert_eq!(console(CASE_A), expected);
}

#[test]
fn cases_b_to_d() {
    prints(&CASE_A.replace("4731", ""), [8, 0, 0, 2], ABSENT);
    prints(
        &CASE_A.replace("budget=2", "budget=1"),
        [9, 0, 0, 1],
        ABSENT,
    );
    prints(
        &CASE_A.replace("budget=2", "budget=0"),
        [9, 1, 0, 0],
        ABSENT,
    );
}

#[test]
fn wrong_lines() {
    let wrong = |old: &str, new: &str, line: u32| {
        prints(&CASE_A.replace(old, new), [20, line, 0, 0], ABSENT);
    };
    for mode in ["mode=Bench", "mode=", "mode=bench ", "mod=bench", ""] {
        wrong("mode=display", mode, 1);
    }
    for budget in ["4294967296", "01", "", "-1", "+1", "99999999999999999999"] {
        wrong("budget=2", &format!("budget={budget}"), 2);
    }
    for message in ["473", "4A", "0x47", "47 31"] {
        wrong("message=4731", &format!("message={message}"), 3);
    }
    wrong("rules=1", "rules=0", 4);
    wrong("nodes=3", "nodes=4", 11);
    wrong("nodes=3", "nodes=2", 10);
    wrong("node=19 0", "node=19  0", 10);
    prints("", [20, 1, 0, 0], ABSENT);
    prints(&CASE_A[..CASE_A.len() - 1], [20, 10, 0, 0], ABSENT);
    prints(&format!("{CASE_A}\n"), [20, 11, 0, 0], ABSENT);
}

#[test]
fn the_greatest_budget() {
    let input = CASE_A.replace("budget=2", "budget=4294967295");
    prints(&input, [0, 0, 1, 2], ["3 47", "0", "0", "0"]);
}

#[test]
fn checks_are_told() {
    let field = CASE_A.replace("node=2 71", "node=2 256");
    prints(&field, [2, 19, 0, 0], ABSENT);
    let typed = CASE_A.replace("3 0 0 0\nnode=2", "2 0 0 0\nnode=2");
    prints(&typed, [5, 0, 0, 0], ABSENT);
    let bench = typed.replace("display", "bench");
    prints(&bench, [0, 0, 1, 2], ["3 47", "0", "0", "0"]);
}

#[test]
fn every_sort_of_value() {
    let input = "mode=display
budget=1
message=
rules=1
nodes=5
literals=ab0c
rule=0 0 0 0 0 0 4 1 2 3 4 1 2 3 3
node=1 0 0 0 0 0 0 0 0 0
node=16 1 0 0 0 0 0 0 0 0
node=17 65535 65533 0 0 0 0 0 0 0
node=18 0 2 0 0 0 0 0 0 0
node=18 2 0 0 0 0 0 0 0 0
";
    prints(input, [0, 0, 0, 1], ["1 1", "2 -3", "3 ab0c", "3"]);
    let least = input.replace("65535 65533", "32768 0");
    let values = ["1 0", "2 -2147483648", "3 ab0c", "3"];
    prints(
        &least.replace("node=16 1", "node=16 0"),
        [0, 0, 0, 1],
        values,
    );
}

#[test]
fn the_longest_input() {
    let room = 65_536 - CASE_A.len();
    let fits = CASE_A.replace("4731", &format!("4731{}", "00".repeat(room / 2)));
    let fits = if room % 2 == 1 {
        fits.replace("budget=2", "budget=22")
    } else {
        fits
    };
    assert_eq!(fits.len(), 65_536);
    prints(&fits, [0, 0, 1, 2], ["3 47", "0", "0", "0"]);
    assert_eq!(console(&format!("{fits}\n")), "answer=23\n");
    assert_eq!(console(&"x".repeat(65_537)), "answer=23\n");
    prints(&"x".repeat(65_536), [20, 1, 0, 0], ABSENT);
}

fn part(home: Home, start: u32, length: u32) -> Span {
    Span {
        home,
        start,
        length,
    }
}

#[test]
fn text_bytes() {
    let bytes = |value: Value| REFERENCE.text_bytes(b"abc", b"xy", value).expect("a part");
    let nothing = part(Home::Message, 0, 0);
    for value in [Value::Absent, Value::Bool(true), Value::Integer(1)] {
        assert_eq!(bytes(value), nothing);
    }
    assert_eq!(bytes(of_message(1, 2)), part(Home::Message, 1, 2));
    assert_eq!(bytes(of_message(3, 0)), part(Home::Message, 3, 0));
    assert_eq!(bytes(of_literals(0, 2)), part(Home::Literals, 0, 2));
    assert_eq!(bytes(of_message(1, 3)), nothing);
    assert_eq!(bytes(of_message(4, 0)), nothing);
    assert_eq!(bytes(of_literals(1, 2)), nothing);
    assert_eq!(bytes(of_literals(u32::MAX, u32::MAX)), nothing);
}
