//! One random case from one seed.

use super::damage::{damaged, slices_of, Slices};
use super::draft::Draft;
use super::prng::Random;
use super::{listings, messages, tables};
use crate::numbers::{is_run, BUDGET, DONE};
use crate::reference::console::MOST_WORDS;
use crate::reference::listing::listing_of;
use crate::reference::run::{run, Lent};
use crate::reference::table::{Table, MOST_LITERALS};
use crate::subject::{Home, Span, Value};

/// The most visits a case may ask for unless its run ends by itself.
pub const AFFORDABLE: u32 = 3_000;

#[derive(Clone, Debug)]
pub struct RunCase {
    pub display: bool,
    pub words: Vec<u16>,
    pub literals: Vec<u8>,
    pub message: Vec<u8>,
    pub budget: u32,
    pub work: Vec<u32>,
}

/// The slices are as lent, with what stands in them before.
#[derive(Clone, Debug)]
pub struct ReadCase {
    pub text: Vec<u8>,
    pub words: Vec<u16>,
    pub literals: Vec<u8>,
}

#[derive(Clone, Debug)]
pub struct WriteCase {
    pub words: Vec<u16>,
    pub literals: Vec<u8>,
    pub text: Vec<u8>,
}

#[derive(Clone, Debug)]
pub struct TextCase {
    pub message: Vec<u8>,
    pub literals: Vec<u8>,
    pub value: Value,
}

#[derive(Clone, Debug)]
pub enum Case {
    Run(RunCase),
    Read(ReadCase),
    Write(WriteCase),
    Text(TextCase),
}

pub fn case(seed: u64, work_words: usize) -> Case {
    let random = &mut Random::new(seed);
    match random.weighed(&[77, 14, 6, 3]) {
        0 => {
            let hurt = random.chance(200);
            Case::Run(run_case(random, hurt, work_words))
        }
        1 => Case::Read(read_case(random)),
        2 => Case::Write(write_case(random)),
        _ => Case::Text(text_case(random)),
    }
}

/// A sound table, and whether the maker may have slipped.
fn draft(random: &mut Random) -> (Draft, bool) {
    let slip = match random.weighed(&[60, 40]) {
        0 => 0,
        _ => random.pick(&[5, 15, 40, 100]),
    };
    (tables::table(random, slip), slip > 0)
}

/// Ill typed tables only run on the bench.
fn mode(random: &mut Random, slipped: bool) -> bool {
    random.chance(if slipped { 200 } else { 600 })
}

/// Number and visits of a bench run, if it ends within what is affordable.
pub fn probe(words: &[u16], literals: &[u8], message: &[u8]) -> Option<(u32, u32)> {
    let lent = Lent {
        display: false,
        words,
        literals,
        message,
        budget: AFFORDABLE,
    };
    let record = run(&lent, &mut [], 0);
    (record.number != BUDGET).then_some((record.number, record.visits))
}

pub fn run_case(random: &mut Random, hurt: bool, work_words: usize) -> RunCase {
    let (draft, slipped) = draft(random);
    let slices = match hurt {
        true => damaged(random, &draft),
        false => slices_of(&draft),
    };
    let message = message_for(random, &draft, &slices);
    let budget = budget_for(random, &slices, &message);
    RunCase {
        display: mode(random, slipped),
        words: slices.words,
        literals: slices.literals,
        message,
        budget,
        work: work_area(random, work_words),
    }
}

/// Several tries, to have a DONE more often than chance would.
fn message_for(random: &mut Random, draft: &Draft, slices: &Slices) -> Vec<u8> {
    if random.chance(3) {
        return vec![b'1'; random.pick(&[65_535, 65_536, 65_537, 70_000])];
    }
    let mut message = messages::message(random, draft);
    for _ in 0..random.below(6) {
        match probe(&slices.words, &slices.literals, &message) {
            Some((number, _)) if number != DONE && is_run(number) => {}
            _ => return message,
        }
        message = messages::matching(random, draft);
    }
    message
}

fn budget_for(random: &mut Random, slices: &Slices, message: &[u8]) -> u32 {
    let small = random.below(60) as u32;
    let Some((_, visits)) = probe(&slices.words, &slices.literals, message) else {
        return random.pick(&[0, 1, small, AFFORDABLE]);
    };
    let any = random.below(visits as usize + 1) as u32;
    match random.weighed(&[3, 3, 8, 8, 20, 10, 48]) {
        0 => 0,
        1 => 1,
        2 => small,
        3 => any,
        4 => visits,
        5 => visits.saturating_sub(1),
        _ => random.pick(&[visits + 1, 1 << 20, u32::MAX - 1, u32::MAX]),
    }
}

fn work_area(random: &mut Random, work_words: usize) -> Vec<u32> {
    let length = match random.weighed(&[60, 25, 4, 2, 4]) {
        0 => work_words,
        1 => work_words + random.between(1, 40),
        2 => work_words.saturating_sub(1),
        3 => 0,
        _ => random.below(work_words + 1),
    };
    let dirt = random.pick(&[0, 1, u32::MAX, 0x9e37_79b9]);
    (0..length as u32)
        .map(|index| dirt.wrapping_mul(index + 1))
        .collect()
}

fn listing(draft: &Draft) -> String {
    listing_of(&Table {
        words: &draft.words(),
        literals: &draft.literals,
    })
}

fn room(random: &mut Random, needed: usize, most: usize) -> usize {
    match random.weighed(&[40, 30, 8, 4, 8, 10]) {
        0 => needed,
        1 => needed + random.between(1, 30),
        2 => needed.saturating_sub(1),
        3 => 0,
        4 => random.below(needed + 1),
        _ => most,
    }
}

fn read_case(random: &mut Random) -> ReadCase {
    let (draft, _) = draft(random);
    let mut text = listing(&draft).into_bytes();
    if random.chance(500) {
        listings::hurt(random, &mut text);
    }
    let words = room(random, draft.words().len(), MOST_WORDS);
    let literals = room(random, draft.literals.len(), MOST_LITERALS);
    let dirt = random.word();
    ReadCase {
        text,
        words: vec![dirt; words],
        literals: vec![dirt as u8; literals],
    }
}

fn write_case(random: &mut Random) -> WriteCase {
    let (draft, _) = draft(random);
    let needed = listing(&draft).len();
    let slices = match random.chance(400) {
        true => damaged(random, &draft),
        false => slices_of(&draft),
    };
    WriteCase {
        words: slices.words,
        literals: slices.literals,
        text: vec![random.byte(); room(random, needed, 2 * needed)],
    }
}

fn text_case(random: &mut Random) -> TextCase {
    let message = messages::of_alphabet(random, 12);
    let literals = messages::of_alphabet(random, 12);
    let bound = |random: &mut Random| match random.weighed(&[85, 15]) {
        0 => random.below(14) as u32,
        _ => random.pick(&[65_535, 65_536, u32::MAX, u32::MAX - 5, 1 << 31]),
    };
    let value = match random.weighed(&[5, 5, 5, 85]) {
        0 => Value::Absent,
        1 => Value::Bool(random.chance(500)),
        2 => Value::Integer(random.next() as i32),
        _ => Value::Text(Span {
            home: random.pick(&[Home::Message, Home::Literals]),
            start: bound(random),
            length: bound(random),
        }),
    };
    TextCase {
        message,
        literals,
        value,
    }
}
