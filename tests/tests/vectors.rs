//! The stored vectors through the reference, and that the program would tell a wrong reader or a wrong case.

use reader_tests::subject::*;
use reader_tests::vectors::{judged, read, written, Item, WORK_WORDS};

const REFERENCE: Reference = Reference {
    work_words: WORK_WORDS,
};

fn file(name: &str) -> String {
    let path = format!("{}/vectors/{name}", env!("CARGO_MANIFEST_DIR"));
    std::fs::read_to_string(path).expect("a stored file")
}

#[test]
fn the_reference_gives_what_is_stored() {
    for name in ["table", "typing", "runs", "listing"] {
        let cases = file(&format!("{name}.cases"));
        let stored = file(&format!("{name}.stored"));
        let judged = judged(&cases, &stored, &REFERENCE);
        assert!(matches!(judged, Ok(1..)), "{name}: {judged:?}");
    }
}

#[test]
fn a_file_that_says_nothing_is_refused() {
    let told = |cases: &str, stored: &str| judged(cases, stored, &REFERENCE).err();
    let case = format!("{CASE_A}check x: a\n");
    assert_eq!(told(&case, "check x: passed\n"), None);
    for cases in ["", "\n", "## A sentence\n", CASE_A] {
        assert_eq!(told(cases, "").as_deref(), Some("there is no case"));
    }
    assert_eq!(told(&case, "").as_deref(), Some("nothing is stored"));
    for stored in [
        "\n",
        "check x: passed",
        "check x: passed\n\n",
        "check x: SIZE 0\n",
    ] {
        let told = told(&case, stored).unwrap_or_default();
        assert!(told.starts_with("stored line "), "{told}");
    }
}

const CASE_A: &str = "table a
rule 0: 1  0 0 0 0 0  1 2 0 0 0  3
node 0: 2 71
node 1: 8 0 0
node 2: 19 0
";

fn cases(lines: &str) -> Result<Vec<Item>, String> {
    read(&format!("{CASE_A}{lines}\n"))
}

#[test]
fn a_case_that_says_nothing_or_something_else_is_refused() {
    for (lines, told) in [
        ("check x: b", "line 6: no table b"),
        ("check x: a; word 19 = 71", "line 6: word 19 is 71 already"),
        ("check x: a; word 48 = 1", "line 6: no word 48"),
        (
            "check x: a; word 19 = 65536",
            "line 6: \"65536\" isn't a number that fits",
        ),
        ("check x: a\ncheck x: a", "line 7: a second check x"),
        ("node 2: 1", "line 6: record 2 where 3 is due"),
        ("table a", "line 6: a second table a"),
        ("checks x: a", "line 6: checks is no question"),
    ] {
        assert_eq!(cases(lines).err().as_deref(), Some(told));
    }
}

const LISTING_A: &str = "listing a
line 1: rules=1
line 2: nodes=1
line 3: literals=4a
line 4: rule=0 0 0 0 0 0 0 0 0 0 0 0 0 0 0
line 5: node=1 0 0 0 0 0 0 0 0 0
room 28 1
";

fn readings(lines: &str) -> Result<Vec<Item>, String> {
    read(&format!("{LISTING_A}{lines}\n"))
}

#[test]
fn a_reading_that_says_nothing_or_something_else_is_refused() {
    for (lines, told) in [
        ("read x: b", "line 8: no listing b"),
        ("read x: a; line 6 = \"\"", "line 8: no line 6"),
        (
            "read x: a; line 1 = \"rules=1\"",
            "line 8: line 1 is that already",
        ),
        (
            "read x: a; line 1 first \"2\" = \"3\"",
            "line 8: no \"2\" there",
        ),
        ("read x: a\nread x: a", "line 9: a second read x"),
        ("line 7: node=1", "line 8: line 7 where 6 is due"),
        ("listing a", "line 8: a second listing a"),
    ] {
        assert_eq!(readings(lines).err().as_deref(), Some(told));
    }
}

/// What is wrong by itself isn't right by being stored.
#[test]
fn a_wrong_answer_that_is_stored_is_refused() {
    let cases = format!("{CASE_A}display A: a; message \"G1\"; budget 2\n");
    let told = |run: BendRun| {
        let bent = Bent { run, ..STRAIGHT };
        let stored = written(&read(&cases).expect("a case"), &bent);
        judged(&cases, &stored, &bent).err()
    };
    assert_eq!(told(|_, _, _| {}), None);
    for bend in [
        (|_, work, _| work[WORK_WORDS - 1] = 1) as BendRun,
        |_, work, _| work[WORK_WORDS] = 0,
        |record, _, lent| record.visits += lent[1] % 3,
        |record, _, _| record.number = 77,
        |record, _, _| record.values[3] = Value::Stray { tag: 1, payload: 2 },
    ] {
        let told = told(bend).unwrap_or_default();
        assert!(told.contains("WRONG"), "{told}");
    }
}

/// After a run: the answer, the work area, and what was lent as one.
type BendRun = fn(&mut Record, &mut [u32], &[u32]);
/// After a reading: the answer, words and literals, and what was lent as words.
type BendRead = fn(&mut ReadAnswer, &mut [u16], &mut [u8], &[u16]);
/// After a writing: the answer, the text, and what was lent as one.
type BendWrite = fn(&mut WriteAnswer, &mut [u8], &[u8]);

/// The reference, but what it answers and leaves in lent slices is bent afterwards.
struct Bent {
    run: BendRun,
    read: BendRead,
    write: BendWrite,
}

const STRAIGHT: Bent = Bent {
    run: |_, _, _| {},
    read: |_, _, _, _| {},
    write: |_, _, _| {},
};

impl Subject for Bent {
    fn work_words(&self) -> usize {
        WORK_WORDS
    }
    fn check(&self, words: &[u16], literals: &[u8]) -> (u32, u32) {
        REFERENCE.check(words, literals)
    }
    fn type_check(&self, words: &[u16], literals: &[u8]) -> (u32, u32) {
        REFERENCE.type_check(words, literals)
    }
    fn run(
        &self,
        display: bool,
        words: &[u16],
        literals: &[u8],
        message: &[u8],
        budget: u32,
        work: &mut [u32],
    ) -> Record {
        let lent = work.to_vec();
        let mut record = REFERENCE.run(display, words, literals, message, budget, work);
        (self.run)(&mut record, work, &lent);
        record
    }
    fn read(&self, text: &[u8], words: &mut [u16], literals: &mut [u8]) -> ReadAnswer {
        let lent = words.to_vec();
        let mut answer = REFERENCE.read(text, words, literals);
        (self.read)(&mut answer, words, literals, &lent);
        answer
    }
    fn write(&self, words: &[u16], literals: &[u8], text: &mut [u8]) -> WriteAnswer {
        let lent = text.to_vec();
        let mut answer = REFERENCE.write(words, literals, text);
        (self.write)(&mut answer, text, &lent);
        answer
    }
    fn text_bytes(&self, message: &[u8], literals: &[u8], value: Value) -> Option<Span> {
        REFERENCE.text_bytes(message, literals, value)
    }
}

#[test]
fn a_wrong_run_is_told() {
    let items = cases("display A: a; message \"G1\"; budget 2").expect("a case");
    let line = |run| written(&items, &Bent { run, ..STRAIGHT });
    let right = "display A: DONE 0, consumed 1, visits 2, Text message 0 1 \"G\"; work zeroed\n";
    assert_eq!(line(|_, _, _| {}), right);
    for bend in [
        (|record, _, _| record.visits += 1) as BendRun,
        |record, _, _| record.consumed = 0,
        |record, _, _| record.place = 1,
        |record, _, _| record.values[3] = Value::Bool(false),
        |record, _, _| record.values[0] = Value::Absent,
        |_, work, _| work[WORK_WORDS - 1] = 1,
        |_, work, _| work[WORK_WORDS] = 0,
        |_, work, lent| work.copy_from_slice(lent),
        |record, _, lent| record.visits += lent[1] % 3,
    ] {
        assert_ne!(line(bend), right);
    }
}

#[test]
fn a_wrong_reading_is_told() {
    let items = readings("read x: a; room 29 2\nread y: a; line 5 = \"\"").expect("cases");
    let lines = |read| written(&items, &Bent { read, ..STRAIGHT });
    let right = "read x: DONE 0, 28 words, 1 literals: rule 0, node 1, \"J\"; again 88 bytes
read y: LINE 5
";
    assert_eq!(lines(|_, _, _, _| {}), right);
    for bend in [
        (|answer, _, _, _| answer.line += 1) as BendRead,
        |answer, _, _, _| answer.number = 21,
        |answer, _, _, _| answer.words += 1,
        |answer, _, _, _| answer.literals = 0,
        |_, words, _, _| words[27] = 1,
        |_, words, _, lent| words[4] = lent[4],
        |_, words, _, _| *words.last_mut().expect("a word") = 0,
        |_, _, literals, _| literals[0] = 0,
        |_, _, literals, _| *literals.last_mut().expect("a literal") = 0,
        |_, words, _, lent| words.copy_from_slice(lent),
    ] {
        assert_ne!(lines(bend), right);
    }
}

#[test]
fn a_wrong_writing_is_told() {
    let items = cases("write x: a; room 200\nwrite y: a; room 9\nwrite z: a; append 0; room 0");
    let items = items.expect("cases");
    let lines = |write| written(&items, &Bent { write, ..STRAIGHT });
    let right = "write x: DONE 0, 138 bytes: rules=1 / nodes=3 / literals= / \
        rule=1 0 0 0 0 0 1 2 0 0 0 3 0 0 0 / node=2 71 0 0 0 0 0 0 0 0 / \
        node=8 0 0 0 0 0 0 0 0 0 / node=19 0 0 0 0 0 0 0 0 0 /; back 48 words, 0 literals
write y: OUT 0
write z: SIZE 0
";
    assert_eq!(lines(|_, _, _| {}), right);
    for bend in [
        (|answer, _, _| answer.length += 1) as BendWrite,
        |answer, _, _| answer.number = 22,
        |answer, _, _| answer.length = 0,
        |_, text, _| text.fill(0),
        |_, text, lent| text.copy_from_slice(lent),
        |_, text, _| text.iter_mut().skip(138).for_each(|byte| *byte = 0),
        |_, text, _| text.iter_mut().take(1).for_each(|byte| *byte = b'R'),
    ] {
        assert_ne!(lines(bend), right);
    }
}
