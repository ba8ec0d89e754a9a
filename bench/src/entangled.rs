//! Tables in which slots are written, failed over and handed on all the time: random trees over four slots that are always set, so that a slot which isn't given back, or
//! is given back where it shouldn't be, is seen in the returned values. For the bench: types are not kept.

use reader_tests::random::cases::{RunCase, AFFORDABLE};
use reader_tests::random::draft::Draft;
use reader_tests::random::prng::Random;
use reader_tests::reference::table::*;

const USED: u16 = 4;
const RULES: u16 = 3;

pub fn case(random: &mut Random, work_words: usize) -> RunCase {
    let mut draft = Draft::default();
    for rule in 0..RULES {
        let inherited: &[u16] = if rule == 0 { &[] } else { &[INTEGER_TYPE] };
        let height = random.between(2, 6);
        let mut body = tree(random, &mut draft, height);
        for slot in inherited.len() as u16..USED {
            let number = draft.node(INTEGER, &[0, slot]);
            let first = draft.node(UPDATE, &[slot, number]);
            body = draft.node(SEQUENCE, &[first, body]);
        }
        let returned: Vec<(u16, u16)> = (0..returned_of(rule))
            .map(|slot| (draft.node(SLOT, &[slot]), INTEGER_TYPE))
            .collect();
        draft.rule(body, inherited, &returned);
    }
    let length = random.below(12);
    let few = random.below(200) as u32;
    RunCase {
        display: false,
        words: draft.words(),
        literals: Vec::new(),
        message: (0..length).map(|_| random.pick(b"ab")).collect(),
        budget: random.pick(&[AFFORDABLE, few]),
        work: vec![u32::MAX; work_words],
    }
}

fn returned_of(rule: u16) -> u16 {
    if rule == 0 {
        USED
    } else {
        2
    }
}

fn tree(random: &mut Random, draft: &mut Draft, height: usize) -> u16 {
    if height == 0 {
        return leaf(random, draft);
    }
    let slot = random.below(USED as usize) as u16;
    match random.weighed(&[30, 25, 12, 18, 10, 5]) {
        0 => two(random, draft, SEQUENCE, height),
        1 => two(random, draft, CHOICE, height),
        2 => {
            let part = two(random, draft, SEQUENCE, height);
            draft.node(REPEAT, &[part])
        }
        3 => {
            let part = tree(random, draft, height - 1);
            draft.node(NOT, &[part])
        }
        4 => {
            let part = tree(random, draft, height - 1);
            draft.node(BIND, &[slot, part])
        }
        _ => leaf(random, draft),
    }
}

fn two(random: &mut Random, draft: &mut Draft, kind: u16, height: usize) -> u16 {
    let first = tree(random, draft, height - 1);
    let second = tree(random, draft, height - 1);
    draft.node(kind, &[first, second])
}

fn leaf(random: &mut Random, draft: &mut Draft) -> u16 {
    let slot = random.below(USED as usize) as u16;
    let number = random.below(8) as u16;
    match random.weighed(&[35, 5, 40, 20]) {
        0 => {
            let byte = random.pick(b"ab");
            draft.node(TERMINAL, &[byte as u16])
        }
        1 => draft.node(EMPTY, &[]),
        2 => {
            let number = draft.node(INTEGER, &[0, number]);
            draft.node(UPDATE, &[slot, number])
        }
        _ => {
            let argument = draft.node(SLOT, &[slot]);
            let callee = random.between(1, RULES as usize - 1) as u16;
            let receivers = [0, 1].map(|_| random.below(USED as usize) as u16);
            draft.node(
                CALL,
                &[callee, argument, 0, 0, 0, receivers[0], receivers[1]],
            )
        }
    }
}

/// 'a' ('a' ('a' ..)) of this many sequences, or as many choices: at the greatest depth, and one more.
pub fn chain(kind: u16, length: usize) -> Draft {
    let mut draft = Draft::default();
    let mut body = draft.node(TERMINAL, &[b'a' as u16]);
    for _ in 0..length {
        let first = draft.node(TERMINAL, &[b'a' as u16]);
        body = draft.node(kind, &[first, body]);
    }
    draft.rule(body, &[], &[]);
    draft
}

/// x←0, ((?(10,000>x) x←x+1)* 'z' / empty): an arm that writes a slot more often than the work area has words, and fails. Returns x, which is 0.
pub fn counted_in_vain() -> Draft {
    let mut draft = Draft::default();
    let zero = draft.node(INTEGER, &[0, 0]);
    let first = draft.node(UPDATE, &[0, zero]);
    let most = draft.node(INTEGER, &[0, 10_000]);
    let now = draft.node(SLOT, &[0]);
    let below = draft.node(GREATER, &[most, now]);
    let guard = draft.node(CONSTRAINT, &[below]);
    let now = draft.node(SLOT, &[0]);
    let one = draft.node(INTEGER, &[0, 1]);
    let sum = draft.node(ADD, &[now, one]);
    let step = draft.node(UPDATE, &[0, sum]);
    let round = draft.node(SEQUENCE, &[guard, step]);
    let rounds = draft.node(REPEAT, &[round]);
    let end = draft.node(TERMINAL, &[b'z' as u16]);
    let arm = draft.node(SEQUENCE, &[rounds, end]);
    let other = draft.node(EMPTY, &[]);
    let choice = draft.node(CHOICE, &[arm, other]);
    let body = draft.node(SEQUENCE, &[first, choice]);
    let returned = draft.node(SLOT, &[0]);
    draft.rule(body, &[], &[(returned, INTEGER_TYPE)]);
    draft
}
