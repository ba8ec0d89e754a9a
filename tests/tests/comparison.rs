//! The comparison itself: what it reaches, what it finds, how it shrinks.

mod common;

use common::REFERENCE;
use reader_tests::compare::consoles::{compare_consoles, FEW};
use reader_tests::compare::{compare, compare_kinds};
use reader_tests::numbers::*;
use reader_tests::random::cases::Case;
use reader_tests::random::prng::Random;
use reader_tests::random::tables::table;
use reader_tests::subject::*;

#[test]
fn the_reference_agrees_with_itself_and_reaches_everything() {
    let report = compare(&REFERENCE, &REFERENCE, 1, 20_000);
    println!("{report}");
    assert_eq!(report.verdict(), Ok(()));
}

#[test]
fn few_console_inputs_reach_everything() {
    let report = compare_consoles(&REFERENCE, &REFERENCE, 1, FEW);
    println!("{report}");
    assert_eq!(report.verdict(), Ok(()));
}

#[test]
fn every_kind() {
    assert_eq!(
        compare_kinds(&REFERENCE, &REFERENCE, 0..=u16::MAX),
        Ok(65_536)
    );
}

/// "Places past n or m hold 0" and the rest, as the maker understands them.
#[test]
fn a_maker_that_never_slips_makes_well_typed_tables() {
    for seed in 0..5_000 {
        let draft = table(&mut Random::new(seed), 0);
        let answer = REFERENCE.type_check(&draft.words(), &draft.literals);
        assert!([DONE, START].contains(&answer.0), "seed {seed}: {answer:?}");
    }
}

#[test]
fn a_maker_that_slips_makes_sound_tables() {
    let mut ill_typed = 0;
    for seed in 0..5_000 {
        let draft = table(&mut Random::new(seed), 100);
        let answer = REFERENCE.check(&draft.words(), &draft.literals);
        assert!([DONE, START].contains(&answer.0), "seed {seed}: {answer:?}");
        ill_typed += (REFERENCE.type_check(&draft.words(), &draft.literals).0 == TYPE) as u32;
    }
    assert!(ill_typed > 2_000, "{ill_typed}");
}

/// The reference with some answers bent.
struct Wrong {
    record: fn(&mut Record),
    check: fn((u32, u32)) -> (u32, u32),
    read: fn(&mut ReadAnswer),
    dirty: bool,
}

const RIGHT: Wrong = Wrong {
    record: |_| {},
    check: |answer| answer,
    read: |_| {},
    dirty: false,
};

impl Subject for Wrong {
    fn work_words(&self) -> usize {
        REFERENCE.work_words()
    }

    fn check(&self, words: &[u16], literals: &[u8]) -> (u32, u32) {
        (self.check)(REFERENCE.check(words, literals))
    }

    fn type_check(&self, words: &[u16], literals: &[u8]) -> (u32, u32) {
        REFERENCE.type_check(words, literals)
    }

    fn run(
        &self,
        display: bool,
        words: &[u16],
        literals: &[u8],
        message: &[u8],
        budget: u32,
        work: &mut [u32],
    ) -> Record {
        let mut record = REFERENCE.run(display, words, literals, message, budget, work);
        if self.dirty && record.number == STUCK {
            work[3] = 1;
        }
        (self.record)(&mut record);
        record
    }

    fn read(&self, text: &[u8], words: &mut [u16], literals: &mut [u8]) -> ReadAnswer {
        let mut answer = REFERENCE.read(text, words, literals);
        (self.read)(&mut answer);
        answer
    }

    fn write(&self, words: &[u16], literals: &[u8], text: &mut [u8]) -> WriteAnswer {
        REFERENCE.write(words, literals, text)
    }

    fn text_bytes(&self, message: &[u8], literals: &[u8], value: Value) -> Option<Span> {
        REFERENCE.text_bytes(message, literals, value)
    }
}

fn found(wrong: &Wrong) -> (Case, String) {
    let report = compare(&REFERENCE, wrong, 1, 20_000);
    let shown = report.to_string();
    let failure = report.failure.expect("a difference");
    (failure.shrunk, shown)
}

#[test]
fn a_fault_taken_for_a_failed_match_is_found_and_shrunk() {
    let wrong = Wrong {
        record: |record| {
            if record.number == FAULT {
                *record = Record::refusal(NOMATCH, 0);
            }
        },
        ..RIGHT
    };
    let (case, shown) = found(&wrong);
    let Case::Run(case) = case else {
        panic!("{shown}");
    };
    assert!(case.words[1] <= 10, "{shown}");
    assert!(case.words[0] <= 2, "{shown}");
    assert!(case.message.is_empty());
    assert!(case.budget <= 2);
    assert!(shown.contains("mode=bench\nbudget="), "{shown}");
}

#[test]
fn invented_visits_are_found() {
    let wrong = Wrong {
        record: |record| record.visits = record.visits.min(40),
        ..RIGHT
    };
    found(&wrong);
}

/// Both sides make the same slip, so that they don't differ.
#[test]
fn an_answer_that_its_question_can_t_have_is_told() {
    let stuck_displays = Wrong {
        record: |record| {
            if record.number == FAULT {
                record.number = STUCK;
            }
        },
        ..RIGHT
    };
    let report = compare(&stuck_displays, &stuck_displays, 1, 20_000);
    assert!(report.failure.is_none());
    assert_eq!(report.coverage.strange(), ["display run answered 11"]);
    assert!(report.verdict().is_err());
}

#[test]
fn a_value_that_has_no_row_is_told_though_both_give_it() {
    let stray = Wrong {
        record: |record| record.values[3] = Value::Stray { tag: 5, payload: 0 },
        ..RIGHT
    };
    let report = compare(&stray, &stray, 1, 2_000);
    assert!(report.failure.is_none());
    let strange = report.coverage.strange();
    assert_eq!(strange, ["a value Stray { tag: 5, payload: 0 }"]);
    let consoles = compare_consoles(&Spaced, &Spaced, 1, FEW);
    assert!(consoles.failure.is_none());
    assert_eq!(consoles.coverage.strange(), ["value 3 "]);
    assert!(consoles.verdict().is_err());
}

#[test]
fn a_comparison_that_reaches_nothing_is_told() {
    let none = compare(&REFERENCE, &REFERENCE, 1, 0);
    assert!(none.failure.is_none());
    let told = none.verdict().unwrap_err();
    assert!(told.starts_with("never reached: "), "{told}");
    assert!(compare(&REFERENCE, &REFERENCE, 1, 20).verdict().is_err());
    assert!(compare_consoles(&REFERENCE, &REFERENCE, 1, 0)
        .verdict()
        .is_err());
}

#[test]
fn a_check_that_passes_all_is_found() {
    let wrong = Wrong {
        check: |_| (DONE, 0),
        ..RIGHT
    };
    found(&wrong);
}

#[test]
fn a_dirty_work_area_is_found() {
    let (_, shown) = found(&Wrong {
        dirty: true,
        ..RIGHT
    });
    assert!(shown.contains("work area"), "{shown}");
}

#[test]
fn a_wrong_line_number_is_found_and_shrunk() {
    let wrong = Wrong {
        read: |answer| answer.line = answer.line.min(4),
        ..RIGHT
    };
    let (case, shown) = found(&wrong);
    let Case::Read(case) = case else {
        panic!("{shown}");
    };
    assert!(case.text.len() < 90, "{shown}");
}

/// A console that writes a space after the type of an empty Text.
struct Spaced;

impl Console for Spaced {
    fn respond(&self, input: &[u8]) -> Result<Vec<u8>, String> {
        let output = String::from_utf8(REFERENCE.respond(input)?).expect("text");
        Ok(output.replace("value=3\n", "value=3 \n").into_bytes())
    }
}

#[test]
fn a_wrong_console_is_found_and_shrunk() {
    let report = compare_consoles(&REFERENCE, &Spaced, 1, FEW);
    let failure = report.failure.expect("a difference");
    assert!(failure.shrunk_difference.contains("value=3 \\n"));
    assert!(failure.shrunk.len() < 200, "{failure}");
}
