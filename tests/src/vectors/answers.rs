//! Answers as lines. Nothing of an answer is left out but zeros of consumed and visits and absent values at the end. What no answer may be says `WRONG`, so that it is
//! refused even where it is stored.

use super::cases::{Asked, Case};
use super::listing_answers::{reading, writing};
use super::listings::Reading;
use super::pieces::shown;
use super::WORK_WORDS;
use crate::numbers::{ALL, DONE};
use crate::reference::text::bytes_at;
use crate::subject::{Home, Record, Span, Subject, Value};

pub fn of(case: &Case, subject: &dyn Subject) -> String {
    let one = |words: &Vec<u16>| match case.asked {
        Asked::Check => verdict(subject.check(words, &case.literals)),
        Asked::TypeCheck => verdict(subject.type_check(words, &case.literals)),
        Asked::Bench => run(case, words, false, subject),
        Asked::Display => run(case, words, true, subject),
        Asked::Text => part(case, handed_out(case.value, case, subject)),
        Asked::Write => writing(words, &case.literals, case.room, subject),
    };
    let answers: Vec<String> = case.tables.iter().map(one).collect();
    answers.join(" | ")
}

pub fn of_reading(case: &Reading, subject: &dyn Subject) -> String {
    let one = |text: &Vec<u8>| reading(text, case.room, subject);
    let answers: Vec<String> = case.texts.iter().map(one).collect();
    answers.join(" | ")
}

fn verdict((number, place): (u32, u32)) -> String {
    if (number, place) == (DONE, 0) {
        return "passed".to_string();
    }
    numbered(number, place)
}

pub fn numbered(number: u32, place: u32) -> String {
    match ALL.iter().find(|known| known.0 == number) {
        Some((_, name)) => format!("{name} {place}"),
        None => format!("WRONG: number {number} without a name, {place}"),
    }
}

/// Two runs, in work areas that hold different words: the answer must be the same, and what is left must be right both times.
fn run(case: &Case, words: &[u16], display: bool, subject: &dyn Subject) -> String {
    let dirty: [fn(u32) -> u32; 2] = [|_| u32::MAX, |index| index.wrapping_mul(2_654_435_761) | 1];
    let runs = dirty.map(|dirt| {
        let lent: Vec<u32> = (0..case.work as u32).map(dirt).collect();
        let mut work = lent.clone();
        let record = subject.run(
            display,
            words,
            &case.literals,
            &case.message,
            case.budget,
            &mut work,
        );
        let left = left_behind(&lent, &work);
        format!("{}; {left}", record_text(&record, case, subject))
    });
    if runs[0] != runs[1] {
        return format!(
            "WRONG: {} | but with other words in the work area {}",
            runs[0], runs[1]
        );
    }
    runs[0].clone()
}

/// "A run (0, 8 to 12) leaves the first W words zero and the others untouched. Answers 1 to 7 change no memory." The lent words are never zero, so no two of these
/// can be taken for each other.
fn left_behind(lent: &[u32], work: &[u32]) -> &'static str {
    if work == lent {
        return "work as lent";
    }
    let zeroed = lent.len() >= WORK_WORDS
        && work[..WORK_WORDS].iter().all(|&word| word == 0)
        && work[WORK_WORDS..] == lent[WORK_WORDS..];
    if zeroed {
        "work zeroed"
    } else {
        "WRONG: the work area"
    }
}

fn record_text(record: &Record, case: &Case, subject: &dyn Subject) -> String {
    let mut text = numbered(record.number, record.place);
    if record.consumed != 0 {
        text += &format!(", consumed {}", record.consumed);
    }
    if record.visits != 0 {
        text += &format!(", visits {}", record.visits);
    }
    let present = record
        .values
        .iter()
        .rposition(|&value| value != Value::Absent);
    for &value in &record.values[..present.map_or(0, |last| last + 1)] {
        text += &format!(", {}", value_text(value, case, subject));
    }
    text
}

fn value_text(value: Value, case: &Case, subject: &dyn Subject) -> String {
    match value {
        Value::Absent => "absent".to_string(),
        Value::Bool(held) => format!("Bool {}", held as u8),
        Value::Integer(held) => format!("Integer {held}"),
        Value::Stray { tag, payload } => format!("WRONG: tag {tag} with {payload}"),
        Value::Text(span) => {
            let handed = handed_out(value, case, subject);
            if handed != span {
                return format!(
                    "WRONG: Text {} but {} handed out",
                    part(case, span),
                    part(case, handed)
                );
            }
            format!("Text {}", part(case, span))
        }
    }
}

fn handed_out(value: Value, case: &Case, subject: &dyn Subject) -> Span {
    subject
        .text_bytes(&case.message, &case.literals, value)
        .expect("a Text of 16-bit numbers")
}

/// Slice, start, length and the bytes themselves.
fn part(case: &Case, span: Span) -> String {
    let (name, slice) = match span.home {
        Home::Message => ("message", &case.message),
        Home::Literals => ("literals", &case.literals),
    };
    if span.start as usize + span.length as usize > slice.len() {
        return format!("WRONG: {name} {} {} outside", span.start, span.length);
    }
    let bytes = bytes_at(&case.message, &case.literals, span);
    format!("{name} {} {} {}", span.start, span.length, shown(bytes))
}
