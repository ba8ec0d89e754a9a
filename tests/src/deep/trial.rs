//! One table, one exported function on the small stack, everything that comes
//! back compared with the reference, which runs on an ordinary one.

use super::on_stack::{OnStack, NAMES};
use super::tables::{message, Deep};
use crate::compare::one::same;
use crate::exported::{Exports, VERSION, WORK_WORDS};
use crate::numbers::{DONE, FIELD};
use crate::reference::listing::listing_of;
use crate::reference::table::Table;
use crate::subject::{Home, Reference, Span, Subject, Value};

type Same = Result<(), String>;

/// More than most of these runs take (a nest of repeats has no end), some on the
/// way, and none.
const BUDGETS: [u32; 3] = [5_000, 200, 0];

const REFERENCE: Reference = Reference {
    work_words: WORK_WORDS,
};

/// What stands in a lent slice before the call.
const DIRT: u8 = 0xa5;

/// `function` is its place among `NAMES`.
pub fn try_one(on: &OnStack, deep: &Deep, function: usize) -> Same {
    match NAMES[function] {
        "styrmflo_check" => check(on, deep),
        "styrmflo_type_check" => type_check(on, deep),
        "styrmflo_bench" => runs(on, deep, false),
        "styrmflo_display" => runs(on, deep, true),
        "styrmflo_read" => reading(on, deep),
        "styrmflo_write" => writing(on, deep),
        "styrmflo_text" => texts(on, deep),
        _ => same("version", &on.version(), &VERSION),
    }
}

fn check(on: &OnStack, deep: &Deep) -> Same {
    let answer = Subject::check(on, &deep.words, &deep.literals);
    let wanted = if deep.verdict == FIELD { FIELD } else { DONE };
    same("number", &answer.0, &wanted)?;
    same(
        "check",
        &answer,
        &Subject::check(&REFERENCE, &deep.words, &deep.literals),
    )
}

fn type_check(on: &OnStack, deep: &Deep) -> Same {
    let answer = Subject::type_check(on, &deep.words, &deep.literals);
    same("number", &answer.0, &deep.verdict)?;
    same(
        "type check",
        &answer,
        &Subject::type_check(&REFERENCE, &deep.words, &deep.literals),
    )
}

fn runs(on: &OnStack, deep: &Deep, display: bool) -> Same {
    let budgets = if deep.plain {
        &BUDGETS[..]
    } else {
        &BUDGETS[..1]
    };
    for &budget in budgets {
        let run = |subject: &dyn Subject| {
            let mut work = vec![u32::from(DIRT); WORK_WORDS + 3];
            let (words, literals) = (&deep.words, &deep.literals);
            let record = subject.run(display, words, literals, &message(), budget, &mut work);
            (record, work)
        };
        let ((record, work), (wanted, wanted_work)) = (run(on), run(&REFERENCE));
        same(&format!("record, budget {budget}"), &record, &wanted)?;
        same("work area as it must be", &(work == wanted_work), &true)?;
    }
    Ok(())
}

fn listing(deep: &Deep) -> Vec<u8> {
    let table = Table {
        words: &deep.words,
        literals: &deep.literals,
    };
    listing_of(&table).into_bytes()
}

/// Whole, with a line too many, with a wrong last line, and into too little room.
fn reading(on: &OnStack, deep: &Deep) -> Same {
    let whole = listing(deep);
    let room = (deep.words.len() + 2, deep.literals.len() + 2);
    let more = [&whole[..], b"\n"].concat();
    let less = whole[..whole.len() - 1].to_vec();
    let cases = [
        (&whole, room),
        (&more, room),
        (&less, room),
        (&whole, (deep.words.len() - 1, room.1)),
    ];
    let cases = if deep.plain { &cases[..] } else { &cases[..1] };
    for &(text, (most_words, most_literals)) in cases {
        let read = |subject: &dyn Subject| {
            let mut words = vec![u16::from(DIRT); most_words];
            let mut literals = vec![DIRT; most_literals];
            let answer = subject.read(text, &mut words, &mut literals);
            (answer, words, literals)
        };
        let (given, wanted) = (read(on), read(&REFERENCE));
        same("answer", &given.0, &wanted.0)?;
        same("what is read is as it must be", &(given == wanted), &true)?;
    }
    Ok(())
}

/// Into just enough room, and too little.
fn writing(on: &OnStack, deep: &Deep) -> Same {
    let length = listing(deep).len();
    let rooms = [length, length - 1];
    let rooms = if deep.plain { &rooms[..] } else { &rooms[..1] };
    for &room in rooms {
        let write = |subject: &dyn Subject| {
            let mut text = vec![DIRT; room];
            let answer = subject.write(&deep.words, &deep.literals, &mut text);
            (answer, text)
        };
        let (given, wanted) = (write(on), write(&REFERENCE));
        same("answer", &given.0, &wanted.0)?;
        same(
            "what is written is as it must be",
            &(given == wanted),
            &true,
        )?;
    }
    Ok(())
}

/// Of what a run of the table returns, and of a Text in either home; and of a tag
/// that has no row.
fn texts(on: &OnStack, deep: &Deep) -> Same {
    let (message, literals) = (message(), &deep.literals);
    let record = REFERENCE.run(
        false,
        &deep.words,
        literals,
        &message,
        1_000,
        &mut [0; WORK_WORDS],
    );
    let text = |home| {
        Value::Text(Span {
            home,
            start: 1,
            length: literals.len() as u32 - 1,
        })
    };
    let values = [text(Home::Message), text(Home::Literals)];
    for value in record.values.into_iter().chain(values) {
        let part = |subject: &dyn Subject| subject.text_bytes(&message, literals, value);
        same("part", &part(on), &part(&REFERENCE))?;
    }
    same(
        "no tag",
        &on.text_word(message.len(), literals.len(), u32::MAX, u32::MAX),
        &0,
    )
}
