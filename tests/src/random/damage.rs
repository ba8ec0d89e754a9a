//! Tables hurt in a word, a count, a literal or the length of a slice.

use super::draft::Draft;
use super::prng::Random;
use crate::reference::table::*;

pub struct Slices {
    pub words: Vec<u16>,
    pub literals: Vec<u8>,
}

pub fn damaged(random: &mut Random, draft: &Draft) -> Slices {
    let mut draft = draft.clone();
    match random.weighed(&[40, 14, 12, 6, 5, 4, 19]) {
        0 => hurt_records(random, &mut draft),
        1 => hurt_use(random, &mut draft),
        2 => hurt_kind(random, &mut draft),
        3 => hurt_literals(random, &mut draft),
        4 => hurt_start(random, &mut draft),
        5 => grow(random, &mut draft),
        _ => {
            let mut slices = slices_of(&draft);
            hurt_sizes(random, &mut slices);
            return slices;
        }
    }
    slices_of(&draft)
}

pub fn slices_of(draft: &Draft) -> Slices {
    Slices {
        words: draft.words(),
        literals: draft.literals.clone(),
    }
}

fn hurt_records(random: &mut Random, draft: &mut Draft) {
    for _ in 0..random.pick(&[1, 1, 1, 2, 3]) {
        let telling = telling_values(random, draft);
        let value = random.pick(&telling);
        let in_rule = random.chance(300);
        if in_rule {
            let rule = random.below(draft.rules.len());
            let word = random.below(RULE_WORDS);
            draft.rules[rule][word] = near(random, draft.rules[rule][word], value);
        } else {
            let node = random.below(draft.nodes.len());
            let used = 1 + wants(draft.nodes[node][0])
                .iter()
                .filter(|&&want| want != Want::Zero)
                .count();
            let most = if random.chance(700) { used } else { 9 };
            let word = random.between(0, most.min(9));
            draft.nodes[node][word] = near(random, draft.nodes[node][word], value);
        }
    }
}

fn near(random: &mut Random, old: u16, other: u16) -> u16 {
    match random.weighed(&[15, 15, 70]) {
        0 => old.wrapping_add(1),
        1 => old.wrapping_sub(1),
        _ => other,
    }
}

/// The bounds of every field, and some numbers of no meaning.
fn telling_values(random: &mut Random, draft: &Draft) -> Vec<u16> {
    let nodes = draft.nodes.len() as u16;
    let literals = draft.literals.len() as u16;
    let rules = draft.rules.len() as u16;
    let mut values = vec![0, 1, 2, 3, 4, 5, 15, 16, 255, 256, 65_535];
    values.extend([nodes, nodes - 1, literals, literals + 1]);
    values.extend([rules, rules - 1]);
    values.push(random.below(nodes as usize) as u16);
    values.push(random.below(30) as u16);
    values.push(random.word());
    values
}

/// Sound fields, but some node used twice or never.
fn hurt_use(random: &mut Random, draft: &mut Draft) {
    match random.below(3) {
        0 => {
            draft.node(EMPTY, &[]);
        }
        1 => {
            draft.node(BOOL, &[1]);
        }
        _ => use_another(random, draft),
    }
}

fn use_another(random: &mut Random, draft: &mut Draft) {
    let node = random.below(draft.nodes.len());
    let fields = draft.part_fields(node);
    if fields.is_empty() {
        let rule = random.below(draft.rules.len());
        draft.rules[rule][0] = draft.rules[random.below(draft.rules.len())][0];
        return;
    }
    let field = 1 + random.pick(&fields);
    let old = draft.nodes[node][field] as usize;
    let sort = sort_of_kind(draft.nodes[old][0]);
    let same: Vec<usize> = (0..node)
        .filter(|&other| sort_of_kind(draft.nodes[other][0]) == sort)
        .collect();
    draft.nodes[node][field] = random.pick(&same) as u16;
}

fn hurt_kind(random: &mut Random, draft: &mut Draft) {
    let node = random.below(draft.nodes.len());
    let unknown = [0, 11, 12, 13, 14, 15, 29, 30, 255, 256, 272, 65_535];
    draft.nodes[node][0] = match random.weighed(&[50, 30, 20]) {
        0 => random.pick(&unknown),
        1 => random.between(1, 28) as u16,
        _ => random.word(),
    };
}

/// The literals and their count together, so that only Texts may go wrong.
fn hurt_literals(random: &mut Random, draft: &mut Draft) {
    let most = draft.literals.len();
    draft.literals.truncate(random.below(most + 1));
}

/// Rule 0 inherits something; sound otherwise, unless it is called.
fn hurt_start(random: &mut Random, draft: &mut Draft) {
    draft.rules[0][1] = 1;
    draft.rules[0][2] = random.between(1, 3) as u16;
}

/// To the greatest count there is, or one more; sound otherwise.
fn grow(random: &mut Random, draft: &mut Draft) {
    let more = random.below(2);
    match random.below(3) {
        0 => draft.literals.resize(MOST_LITERALS + more, b'a'),
        1 => {
            while draft.rules.len() < MOST_RULES + more {
                let body = draft.node(EMPTY, &[]);
                draft.rule(body, &[], &[]);
            }
        }
        _ => {
            while draft.nodes.len() < MOST_NODES + more {
                draft.rules[0][0] = draft.node(NOT, &[draft.rules[0][0]]);
            }
        }
    }
}

fn hurt_sizes(random: &mut Random, slices: &mut Slices) {
    match random.below(7) {
        0 => {
            slices.literals.pop();
        }
        1 => slices.literals.push(random.byte()),
        2 => slices.words.truncate(random.below(5)),
        3 => {
            let length = random.below(slices.words.len());
            slices.words.truncate(length);
        }
        4 => {
            let more = random.pick(&[1, 10, 15]);
            slices.words.extend((0..more).map(|_| 0));
        }
        5 => {
            let head = random.below(3);
            let value = random.pick(&[0, 1, 64, 65, 1024, 1025, 4096, 4097, 65_535]);
            slices.words[head] = value;
        }
        _ => {
            let head = random.below(3);
            slices.words[head] = near(random, slices.words[head], 2);
        }
    }
}
