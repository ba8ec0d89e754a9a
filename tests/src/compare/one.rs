//! One case, two subjects.

use super::coverage::{Asked, Coverage};
use crate::numbers::{is_run, BUDGET, DONE};
use crate::random::cases::{Case, ReadCase, RunCase, TextCase, WriteCase, AFFORDABLE};
use crate::reference::run::{observe, Lent};
use crate::subject::{ReadAnswer, Record, Subject, Value, WriteAnswer};
use std::fmt::Debug;

type Same = Result<(), String>;

pub fn compare_case(
    left: &dyn Subject,
    right: &dyn Subject,
    case: &Case,
    coverage: &mut Coverage,
) -> Same {
    match case {
        Case::Run(case) => compare_run(left, right, case, coverage),
        Case::Read(case) => compare_read(left, right, case, coverage),
        Case::Write(case) => compare_write(left, right, case, coverage),
        Case::Text(case) => compare_text(left, right, case, coverage),
    }
}

pub fn same<T: PartialEq + Debug>(what: &str, left: &T, right: &T) -> Same {
    if left == right {
        return Ok(());
    }
    Err(format!("{what}: {left:?} and {right:?}"))
}

/// Long slices are told apart by their first difference, which is only sought
/// where there is one: a comparison of the whole is many times faster.
fn same_slice<T: PartialEq + Debug>(what: &str, left: &[T], right: &[T]) -> Same {
    if left == right {
        return Ok(());
    }
    same(&format!("length of {what}"), &left.len(), &right.len())?;
    match (0..left.len()).find(|&index| left[index] != right[index]) {
        None => Ok(()),
        Some(index) => same(&format!("{what} at {index}"), &left[index], &right[index]),
    }
}

fn compare_run(
    left: &dyn Subject,
    right: &dyn Subject,
    case: &RunCase,
    coverage: &mut Coverage,
) -> Same {
    let check = left.check(&case.words, &case.literals);
    coverage.answer(Asked::Check, check.0);
    same("check", &check, &right.check(&case.words, &case.literals))?;
    let typed = left.type_check(&case.words, &case.literals);
    coverage.answer(Asked::TypeCheck, typed.0);
    same(
        "type check",
        &typed,
        &right.type_check(&case.words, &case.literals),
    )?;
    if !compare_within(left, right, case)? {
        return Ok(());
    }
    let (record, work) = run_of(left, case)?;
    let (other, other_work) = run_of(right, case)?;
    coverage.record(case.display, &record);
    same("record", &record, &other)?;
    same_slice("work area", &work, &other_work)?;
    for value in record.values {
        compare_bytes(left, right, &case.message, &case.literals, value, coverage)?;
    }
    if is_run(record.number) {
        coverage.kinds(&observe(&lent(case), &mut [], 0).1);
    }
    Ok(())
}

/// First with a budget that no subject can run away with; whether the whole
/// budget is affordable then.
fn compare_within(left: &dyn Subject, right: &dyn Subject, case: &RunCase) -> Result<bool, String> {
    if case.budget <= AFFORDABLE {
        return Ok(true);
    }
    let case = &RunCase {
        budget: AFFORDABLE,
        ..case.clone()
    };
    let (record, _) = run_of(left, case)?;
    same("record", &record, &run_of(right, case)?.0)?;
    Ok(record.number != BUDGET)
}

fn lent(case: &RunCase) -> Lent<'_> {
    Lent {
        display: case.display,
        words: &case.words,
        literals: &case.literals,
        message: &case.message,
        budget: case.budget,
    }
}

fn run_of(subject: &dyn Subject, case: &RunCase) -> Result<(Record, Vec<u32>), String> {
    let mut work = case.work.clone();
    let record = subject.run(
        case.display,
        &case.words,
        &case.literals,
        &case.message,
        case.budget,
        &mut work,
    );
    work_area_is_right(&record, &case.work, &work, subject.work_words())?;
    Ok((record, work))
}

/// "A run (0, 8 to 12) leaves the first W words zero and the others untouched.
/// Answers 1 to 7 change no memory."
fn work_area_is_right(record: &Record, lent: &[u32], left: &[u32], work_words: usize) -> Same {
    let zeroed = if is_run(record.number) { work_words } else { 0 };
    if zeroed > lent.len() {
        return Err("a run in a work area under W words".to_string());
    }
    if left[..zeroed].iter().any(|&word| word != 0) {
        return Err("work area: a word of the first W isn't zero".to_string());
    }
    same_slice("work area past W", &left[zeroed..], &lent[zeroed..])
}

fn compare_read(
    left: &dyn Subject,
    right: &dyn Subject,
    case: &ReadCase,
    coverage: &mut Coverage,
) -> Same {
    let (answer, words, literals) = read_of(left, case)?;
    let (other, other_words, other_literals) = read_of(right, case)?;
    coverage.answer(Asked::Read, answer.number);
    same("read", &answer, &other)?;
    same_slice("words read", &words, &other_words)?;
    same_slice("literals read", &literals, &other_literals)
}

fn read_of(
    subject: &dyn Subject,
    case: &ReadCase,
) -> Result<(ReadAnswer, Vec<u16>, Vec<u8>), String> {
    let mut words = case.words.clone();
    let mut literals = case.literals.clone();
    let answer = subject.read(&case.text, &mut words, &mut literals);
    if answer.number != DONE {
        same(
            "lengths of a refusal",
            &(answer.words, answer.literals),
            &(0, 0),
        )?;
    }
    untouched("words read", &words, &case.words, answer.words)?;
    untouched("literals read", &literals, &case.literals, answer.literals)?;
    Ok((answer, words, literals))
}

/// "A refusal writes nothing"; a success fills just its length.
fn untouched<T: PartialEq + Debug>(what: &str, now: &[T], lent: &[T], filled: usize) -> Same {
    if filled > lent.len() {
        return Err(format!("{what}: more than was lent"));
    }
    same_slice(
        &format!("{what}, the rest"),
        &now[filled..],
        &lent[filled..],
    )
}

fn compare_write(
    left: &dyn Subject,
    right: &dyn Subject,
    case: &WriteCase,
    coverage: &mut Coverage,
) -> Same {
    let (answer, text) = write_of(left, case)?;
    let (other, other_text) = write_of(right, case)?;
    coverage.answer(Asked::Write, answer.number);
    same("write", &answer, &other)?;
    same_slice("text written", &text, &other_text)
}

fn write_of(subject: &dyn Subject, case: &WriteCase) -> Result<(WriteAnswer, Vec<u8>), String> {
    let mut text = case.text.clone();
    let answer = subject.write(&case.words, &case.literals, &mut text);
    if answer.number != DONE {
        same("length of a refusal", &answer.length, &0)?;
    }
    untouched("text written", &text, &case.text, answer.length)?;
    Ok((answer, text))
}

fn compare_text(
    left: &dyn Subject,
    right: &dyn Subject,
    case: &TextCase,
    coverage: &mut Coverage,
) -> Same {
    let TextCase {
        message,
        literals,
        value,
    } = case;
    compare_bytes(left, right, message, literals, *value, coverage)
}

/// Where both can be asked about the value.
fn compare_bytes(
    left: &dyn Subject,
    right: &dyn Subject,
    message: &[u8],
    literals: &[u8],
    value: Value,
    coverage: &mut Coverage,
) -> Same {
    let parts = [left, right].map(|subject| subject.text_bytes(message, literals, value));
    let [Some(part), Some(other)] = parts else {
        return Ok(());
    };
    coverage.part(value, part);
    same("text bytes", &part, &other)
}
