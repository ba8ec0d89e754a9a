//! Sound tables: well typed when the maker never slips, mostly ill typed when
//! it often does.

use super::draft::{Draft, NodeRecord};
use super::prng::Random;
use crate::reference::table::*;

/// 0 is unset.
pub type SlotTypes = [u16; SLOTS];

#[derive(Clone, Debug, Default)]
pub struct Signature {
    pub inherited: Vec<u16>,
    pub returned: Vec<u16>,
}

pub struct Maker<'a> {
    pub random: &'a mut Random,
    pub draft: Draft,
    pub signatures: Vec<Signature>,
    pub rule: usize,
    /// Otherwise rule 0 returns what its slots hold in the end.
    pub start_is_called: bool,
    /// How often of a thousand a type or slot is left to chance.
    pub slip: usize,
    /// Nodes the rule being made should stay under.
    pub full_at: usize,
}

impl Maker<'_> {
    pub fn slips(&mut self) -> bool {
        self.slip > 0 && self.random.chance(self.slip)
    }

    pub fn is_full(&self) -> bool {
        self.draft.nodes.len() >= self.full_at
    }
}

/// A sound table; START is its only possible refusal beside TYPE.
pub fn table(random: &mut Random, slip: usize) -> Draft {
    let draft = match random.weighed(&[70, 22, 4, 4]) {
        0 => grammar(random, slip, 4, 12, 4),
        1 => grammar(random, slip, 8, 30, 6),
        2 => tall(random),
        _ => grammar(random, slip, 64, 13, 4),
    };
    if draft.nodes.len() > MOST_NODES {
        return grammar(random, slip, 2, 6, 3);
    }
    if random.chance(400) {
        return shuffled(random, &draft);
    }
    draft
}

fn grammar(random: &mut Random, slip: usize, most: usize, share: usize, height: usize) -> Draft {
    let rules = random.between(1, most);
    let length = random.between(0, 24);
    let literals = (0..length).map(|_| literal(random)).collect();
    let signatures: Vec<Signature> = (0..rules).map(|rule| signature(random, rule)).collect();
    let start_is_called = !signatures[0].inherited.is_empty() || random.chance(300);
    let mut maker = Maker {
        random,
        draft: Draft {
            literals,
            ..Draft::default()
        },
        signatures,
        rule: 0,
        start_is_called,
        slip,
        full_at: 0,
    };
    for rule in 0..rules {
        maker.rule = rule;
        maker.full_at = maker.draft.nodes.len() + share;
        maker.make_rule(height);
    }
    maker.draft
}

fn literal(random: &mut Random) -> u8 {
    match random.chance(900) {
        true => random.pick(b"12ab"),
        false => random.byte(),
    }
}

fn signature(random: &mut Random, rule: usize) -> Signature {
    let takes = rule > 0 || random.chance(10);
    let inherited = if takes { random.between(0, 4) } else { 0 };
    let returned = random.between(0, 4);
    let mut types =
        |count: usize| -> Vec<u16> { (0..count).map(|_| random.between(1, 3) as u16).collect() };
    Signature {
        inherited: types(inherited),
        returned: types(returned),
    }
}

impl Maker<'_> {
    fn make_rule(&mut self, height: usize) {
        let signature = self.signatures[self.rule].clone();
        let mut slots = [0; SLOTS];
        slots[..signature.inherited.len()].copy_from_slice(&signature.inherited);
        let counts_down = signature.inherited.first() == Some(&INTEGER_TYPE);
        let body = if counts_down && self.random.chance(350) {
            self.countdown(&mut slots, 2)
        } else if self.random.chance(800) {
            self.sequence(&mut slots, false, height)
        } else {
            self.parsing(&mut slots, false, height)
        };
        let types = match self.rule == 0 && !self.start_is_called {
            true => self.held_types(&slots),
            false => signature.returned,
        };
        let mut returned = Vec::new();
        for given in types {
            let height = self.random.pick(&[0, 0, 1, 2]);
            returned.push((self.expression(given, &slots, height), given));
        }
        self.draft.rule(body, &signature.inherited, &returned);
    }

    /// Up to four types that slots hold, so that returned nodes tell of them.
    fn held_types(&mut self, slots: &SlotTypes) -> Vec<u16> {
        let held: Vec<u16> = slots.iter().copied().filter(|&held| held != 0).collect();
        if held.is_empty() || self.random.chance(100) {
            let count = self.random.between(0, 4);
            return (0..count).map(|_| self.any_type()).collect();
        }
        let count = self.random.between(1, 4);
        (0..count).map(|_| self.random.pick(&held)).collect()
    }
}

/// One rule, hundreds of nodes one inside the other.
fn tall(random: &mut Random) -> Draft {
    let mut draft = Draft::default();
    if random.chance(500) {
        let height = random.between(230, 290);
        let text = draft.node(TEXT, &[0, 0]);
        let first = draft.node(UPDATE, &[3, text]);
        let second = tall_parsing(random, &mut draft, height);
        let body = draft.node(SEQUENCE, &[first, second]);
        let slot = draft.node(SLOT, &[3]);
        draft.rule(body, &[], &[(slot, TEXT_TYPE)]);
        return draft;
    }
    let body = draft.node(EMPTY, &[]);
    let height = random.between(1, 500);
    let (node, given) = tall_expression(random, &mut draft, height);
    draft.rule(body, &[], &[(node, given)]);
    draft
}

fn tall_parsing(random: &mut Random, draft: &mut Draft, height: usize) -> u16 {
    let mut node = draft.node(EMPTY, &[]);
    for _ in 1..height {
        node = match random.weighed(&[60, 20, 10, 10]) {
            0 => draft.node(NOT, &[node]),
            1 => draft.node(BIND, &[3, node]),
            2 => {
                let other = draft.node(EMPTY, &[]);
                draft.node(SEQUENCE, &[other, node])
            }
            _ => {
                let other = draft.node(TERMINAL, &[0]);
                draft.node(CHOICE, &[other, node])
            }
        };
    }
    node
}

fn tall_expression(random: &mut Random, draft: &mut Draft, height: usize) -> (u16, u16) {
    let integer = random.chance(500);
    let leaf = |draft: &mut Draft| match integer {
        true => draft.node(INTEGER, &[0, 1]),
        false => draft.node(BOOL, &[1]),
    };
    let mut node = leaf(draft);
    for _ in 1..height {
        let kind = match integer {
            true => random.pick(&[ADD, SUBTRACT, MULTIPLY, DIVIDE]),
            false => random.pick(&[AND, OR, EQUAL, LOGIC_NOT]),
        };
        if kind == LOGIC_NOT {
            node = draft.node(kind, &[node]);
            continue;
        }
        let other = leaf(draft);
        let left_first = random.chance(500);
        let parts = if left_first {
            [node, other]
        } else {
            [other, node]
        };
        node = draft.node(kind, &parts);
    }
    (node, if integer { INTEGER_TYPE } else { BOOL_TYPE })
}

/// The same trees, their nodes in another order that keeps parts smaller.
pub fn shuffled(random: &mut Random, draft: &Draft) -> Draft {
    let count = draft.nodes.len();
    let mut owner = vec![usize::MAX; count];
    let mut missing = vec![0; count];
    for node in 0..count {
        for part in draft.parts(node) {
            owner[part] = node;
            missing[node] += 1;
        }
    }
    let mut ready: Vec<usize> = (0..count).filter(|&node| missing[node] == 0).collect();
    let mut order = Vec::new();
    while !ready.is_empty() {
        let node = ready.swap_remove(random.below(ready.len()));
        order.push(node);
        if owner[node] != usize::MAX {
            missing[owner[node]] -= 1;
            if missing[owner[node]] == 0 {
                ready.push(owner[node]);
            }
        }
    }
    reordered(draft, &order)
}

fn reordered(draft: &Draft, order: &[usize]) -> Draft {
    let mut number = vec![0u16; order.len()];
    for (new, &old) in order.iter().enumerate() {
        number[old] = new as u16;
    }
    let nodes: Vec<NodeRecord> = order.iter().map(|&old| draft.nodes[old]).collect();
    let mut other = Draft {
        nodes,
        ..draft.clone()
    };
    other.renumber(|old| number[old as usize]);
    other
}
