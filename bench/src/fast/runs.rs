//! Bench and display runs: the checks in order, the run, the answer record, the work area cleared.

use super::drive::{drive, Answer, Frame, FRAMES};
use super::expressions::Sight;
use super::slots::PAIRS;
use super::table::Records;
use super::{checks, types};
use reader_tests::exported::{value, WORK_WORDS};
use reader_tests::numbers::{DONE, LONG, SIZE, WORK};
use reader_tests::reference::run::{Lent, MOST_MESSAGE};
use reader_tests::subject::Record;

type Work = [u32; WORK_WORDS];

pub fn run(lent: &Lent, work: &mut [u32]) -> Record {
    let Some(table) = Records::of(lent.words, lent.literals) else {
        return Record::refusal(SIZE, 0);
    };
    let mut checked = checks::check(&table);
    if checked.0 == DONE && lent.display {
        checked = types::type_check(&table);
    }
    if checked.0 != DONE {
        return Record::refusal(checked.0, checked.1);
    }
    if lent.message.len() > MOST_MESSAGE {
        return Record::refusal(LONG, 0);
    }
    let Some(work) = work.first_chunk_mut::<WORK_WORDS>() else {
        return Record::refusal(WORK, 0);
    };
    let sight = Sight {
        table,
        message: lent.message,
    };
    let answer = answer(sight, lent.budget, work);
    work.fill(0);
    record(answer)
}

/// The frames first, then the pile of slots; some words are left over.
fn answer(sight: Sight, budget: u32, work: &mut Work) -> Answer {
    const FRAME_WORDS: usize = FRAMES * size_of::<Frame>() / size_of::<u32>();
    let (frames, pairs) = work.split_at_mut(FRAME_WORDS);
    let frames = frames.as_chunks_mut().0.first_chunk_mut::<FRAMES>();
    let pairs = pairs.as_chunks_mut().0.first_chunk_mut::<PAIRS>();
    let (Some(frames), Some(pairs)) = (frames, pairs) else {
        unreachable!("W words hold both");
    };
    drive(sight, budget, frames, pairs)
}

fn record(answer: Answer) -> Record {
    Record {
        number: answer.number,
        place: answer.place,
        consumed: answer.consumed,
        visits: answer.visits,
        values: answer.values.map(|held| value(held.tag, held.payload)),
    }
}
