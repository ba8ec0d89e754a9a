//! The listing reader and writer.

mod common;

use common::*;
use reader_tests::numbers::*;
use reader_tests::reference::listing::hex_of;
use reader_tests::subject::{ReadAnswer, Subject, WriteAnswer};

const CASE_A: &str = "rules=1
nodes=3
literals=
rule=1 0 0 0 0 0 1 2 0 0 0 3 0 0 0
node=2 71 0 0 0 0 0 0 0 0
node=8 0 0 0 0 0 0 0 0 0
node=19 0 0 0 0 0 0 0 0 0
";

fn read(text: &str, words: usize, literals: usize) -> (ReadAnswer, Vec<u16>, Vec<u8>) {
    let mut words = vec![9; words];
    let mut literals = vec![9; literals];
    let answer = REFERENCE.read(text.as_bytes(), &mut words, &mut literals);
    (answer, words, literals)
}

fn refused(text: &str, words: usize, literals: usize, number: u32, line: u32) {
    let (answer, now_words, now_literals) = read(text, words, literals);
    let expected = ReadAnswer {
        number,
        line,
        words: 0,
        literals: 0,
    };
    assert_eq!(answer, expected, "{text}");
    assert_eq!(now_words, vec![9; words]);
    assert_eq!(now_literals, vec![9; literals]);
}

fn wrong(text: &str, line: u32) {
    refused(text, 48, 4096, LINE, line);
}

#[test]
fn reads_case_a() {
    let (answer, words, literals) = read(CASE_A, 50, 2);
    let expected = ReadAnswer {
        number: DONE,
        line: 0,
        words: 48,
        literals: 0,
    };
    assert_eq!(answer, expected);
    assert_eq!(words[..48], case_a().words());
    assert_eq!(words[48..], [9; 2]);
    assert_eq!(literals, [9; 2]);
}

#[test]
fn reads_literals() {
    let text = CASE_A.replace("literals=", "literals=00ff1a");
    let (answer, words, literals) = read(&text, 48, 4);
    assert_eq!((answer.words, answer.literals), (48, 3));
    assert_eq!(words[2], 3);
    assert_eq!(literals, [0, 255, 26, 9]);
}

#[test]
fn room_is_judged_after_line_3() {
    refused(CASE_A, 47, 0, ROOM, 0);
    let text = CASE_A.replace("literals=", "literals=00");
    refused(&text, 48, 0, ROOM, 0);
    refused(&text.replace("rule=", "wrong="), 0, 0, ROOM, 0);
    refused(&text.replace("literals=", "literal="), 0, 0, LINE, 3);
}

#[test]
fn wrong_heads() {
    wrong("", 1);
    wrong("\n", 1);
    for head in ["rules=0", "rules=65", "rules=01", "rules=", "rules=1 "] {
        wrong(&CASE_A.replace("rules=1", head), 1);
    }
    for head in ["nodes=0", "nodes=1025", "nodes=+3", "nodes=3\r", "Nodes=3"] {
        wrong(&CASE_A.replace("nodes=3", head), 2);
    }
    for head in ["literals=0", "literals=0A", "literals= ", "literals=0g"] {
        wrong(&CASE_A.replace("literals=", head), 3);
    }
    let bytes = hex_of(&[0; 4097]);
    wrong(
        &CASE_A.replace("literals=", &format!("literals={bytes}")),
        3,
    );
}

#[test]
fn wrong_lines() {
    let node = "node=2 71 0 0 0 0 0 0 0 0";
    let others = [
        "node=2 65536 0 0 0 0 0 0 0 0",
        "node=2 071 0 0 0 0 0 0 0 0",
        "node=2 +71 0 0 0 0 0 0 0 0",
        "node=2 -71 0 0 0 0 0 0 0 0",
        "node=2  71 0 0 0 0 0 0 0 0",
        "node= 2 71 0 0 0 0 0 0 0 0",
        "node=2 71 0 0 0 0 0 0 0 0 ",
        "node=2 71 0 0 0 0 0 0 0 0\r",
        "node=2 71 0 0 0 0 0 0 0",
        "node=2 71 0 0 0 0 0 0 0 0 0",
        "node=2 71 0 0 0 0 0 0 0 \0",
        "node=2 71 0 0 0 0 0 0 0 ",
        "node=",
        "",
        "rule=2 71 0 0 0 0 0 0 0 0",
        "node=2 18446744073709551616 0 0 0 0 0 0 0 0",
    ];
    for other in others {
        wrong(&CASE_A.replace(node, other), 5);
    }
    let most = CASE_A.replace(node, "node=65535 65535 0 0 0 0 0 0 0 0");
    assert_eq!(read(&most, 48, 0).0.number, DONE);
}

#[test]
fn missing_and_doubled_lines() {
    let lines: Vec<&str> = CASE_A.split_inclusive('\n').collect();
    for missing in 0..lines.len() {
        let mut fewer = lines.clone();
        fewer.remove(missing);
        let wrong_line = [1, 2, 3, 4, 7, 7, 7][missing];
        wrong(&fewer.concat(), wrong_line);
        let mut more = lines.clone();
        more.insert(missing, lines[missing]);
        let wrong_line = [2, 3, 4, 5, 8, 8, 8][missing];
        wrong(&more.concat(), wrong_line);
    }
}

#[test]
fn the_end() {
    wrong(&CASE_A[..CASE_A.len() - 1], 7);
    wrong(&format!("{CASE_A}\n"), 8);
    wrong(&format!("{CASE_A}x"), 8);
    wrong(&format!("{CASE_A}\0"), 8);
}

fn written(room: usize) -> (WriteAnswer, Vec<u8>) {
    let mut text = vec![b'x'; room];
    let answer = REFERENCE.write(&case_a().words(), &[], &mut text);
    (answer, text)
}

#[test]
fn writes_case_a() {
    let needed = CASE_A.len();
    let (answer, text) = written(needed + 3);
    assert_eq!((answer.number, answer.length), (DONE, needed));
    assert_eq!(text, format!("{CASE_A}xxx").into_bytes());
    let (answer, text) = written(needed);
    assert_eq!((answer.number, answer.length), (DONE, needed));
    assert_eq!(text, CASE_A.as_bytes());
    let (answer, text) = written(needed - 1);
    assert_eq!((answer.number, answer.length), (OUT, 0));
    assert_eq!(text, vec![b'x'; needed - 1]);
}

#[test]
fn the_writer_refuses_size_before_out() {
    let answer = REFERENCE.write(&case_a().words(), b"x", &mut []);
    assert_eq!((answer.number, answer.length), (SIZE, 0));
}

#[test]
fn the_writer_looks_at_no_field() {
    let mut draft = case_a();
    draft.literals = vec![0xa0];
    draft.nodes[0][0] = 65_535;
    let mut text = vec![0; 999];
    let answer = REFERENCE.write(&draft.words(), &draft.literals, &mut text);
    assert_eq!(answer.number, DONE);
    let listing = String::from_utf8_lossy(&text[..answer.length]).into_owned();
    assert!(listing.contains("literals=a0\n"));
    assert!(listing.contains("node=65535 71 0"));
}
