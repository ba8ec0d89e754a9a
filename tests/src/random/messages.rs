//! Messages that match a table, nearly match it, or have nothing to do with it.

use super::draft::Draft;
use super::prng::Random;
use crate::reference::table::*;

const MOST_STEPS: usize = 400;

pub fn message(random: &mut Random, draft: &Draft) -> Vec<u8> {
    match random.weighed(&[70, 15, 10, 5]) {
        0 => matching(random, draft),
        1 => nearly(random, draft),
        2 => of_alphabet(random, 30),
        _ => Vec::new(),
    }
}

/// What the trees would consume, leaving constraints and nots out of account.
pub fn matching(random: &mut Random, draft: &Draft) -> Vec<u8> {
    let mut bytes = Vec::new();
    let Some(rule) = draft.rules.first() else {
        return bytes;
    };
    let mut steps = MOST_STEPS;
    sketch(random, draft, rule[0] as usize, &mut steps, &mut bytes);
    if random.chance(300) {
        bytes.extend(of_alphabet(random, 4));
    }
    bytes
}

fn sketch(random: &mut Random, draft: &Draft, node: usize, steps: &mut usize, bytes: &mut Vec<u8>) {
    if *steps == 0 || node >= draft.nodes.len() {
        return;
    }
    *steps -= 1;
    let [kind, first, second, ..] = draft.nodes[node].map(usize::from);
    let mut part = |random: &mut Random, node: usize| {
        sketch(random, draft, node, steps, bytes);
    };
    match kind as u16 {
        TERMINAL => bytes.push(first as u8),
        SEQUENCE => {
            part(random, first);
            part(random, second);
        }
        CHOICE => {
            let arm = random.pick(&[first, second]);
            part(random, arm);
        }
        REPEAT => {
            for _ in 0..random.below(4) {
                part(random, first);
            }
        }
        CALL if first < draft.rules.len() => part(random, draft.rules[first][0] as usize),
        BIND => part(random, second),
        _ => {}
    }
}

fn nearly(random: &mut Random, draft: &Draft) -> Vec<u8> {
    let mut bytes = matching(random, draft);
    let place = random.below(bytes.len() + 1);
    match random.below(3) {
        0 => bytes.insert(place, random.pick(b"12ab")),
        1 => bytes.truncate(place),
        _ if place < bytes.len() => bytes[place] = random.byte(),
        _ => bytes.push(random.byte()),
    }
    bytes
}

pub fn of_alphabet(random: &mut Random, most: usize) -> Vec<u8> {
    let length = random.between(0, most);
    (0..length).map(|_| random.pick(b"12ab")).collect()
}
