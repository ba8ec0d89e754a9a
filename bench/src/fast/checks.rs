//! FIELD, USE and START, in one pass over the records: what a record uses is tallied where its words are judged.

use super::table::*;
use reader_tests::numbers::{DONE, FIELD, START, USE};
use reader_tests::reference::table::*;

pub fn check(table: &Records) -> (u32, u32) {
    let mut scan = Scan {
        table,
        used: [0; MOST_NODES],
        uses: 0,
    };
    if let Some(word) = scan.first_bad_word() {
        return (FIELD, word as u32);
    }
    if !scan.each_is_used_once() {
        return (USE, first_misused(table) as u32);
    }
    if table.rules[0][INHERITED] > 0 {
        return (START, 0);
    }
    (DONE, 0)
}

/// The place of a record's first bad word in the record.
type Bad = Option<usize>;

struct Scan<'a> {
    table: &'a Records<'a>,
    /// 1 for a node that is used. Bytes: one store a use.
    used: [u8; MOST_NODES],
    uses: usize,
}

impl Scan<'_> {
    fn first_bad_word(&mut self) -> Option<usize> {
        let Records { rules, nodes, .. } = *self.table;
        for (rule, record) in rules.iter().enumerate() {
            if let Some(word) = self.bad_in_rule(record) {
                return Some(3 + RULE_WORDS * rule + word);
            }
        }
        for (node, record) in nodes.iter().enumerate() {
            if let Some(word) = self.bad_in_node(&nodes[..node], record) {
                return Some(3 + RULE_WORDS * rules.len() + NODE_WORDS * node + word);
            }
        }
        None
    }

    /// As many uses as nodes, and no node without a use: then none has two.
    fn each_is_used_once(&self) -> bool {
        let nodes = self.table.nodes.len();
        let used = self.used[..nodes].iter().map(|&used| usize::from(used));
        self.uses == nodes && used.sum::<usize>() == nodes
    }

    #[inline(always)]
    fn tally(&mut self, node: u16) {
        self.used[usize::from(node) % MOST_NODES] = 1;
        self.uses += 1;
    }

    fn bad_in_rule(&mut self, record: &Rule) -> Bad {
        let [inherited, returned] = [record[INHERITED], record[RETURNED]].map(usize::from);
        if !self.is_any(record[BODY], is_parsing_kind) {
            return Some(BODY);
        }
        if inherited > FOUR {
            return Some(INHERITED);
        }
        let bad = bad_of_four(record, INHERITED_TYPES, inherited, is_type);
        if bad.is_some() {
            return bad;
        }
        if returned > FOUR {
            return Some(RETURNED);
        }
        let is_expression = |node| self.is_any(node, is_expression_kind);
        let bad = bad_of_four(record, RETURNED_NODES, returned, is_expression);
        bad.or_else(|| bad_of_four(record, RETURNED_TYPES, returned, is_type))
    }

    /// A body or a returned node: of any number, and so of a record that isn't judged yet.
    fn is_any(&mut self, node: u16, wanted: fn(u16) -> bool) -> bool {
        self.tally(node);
        let record = self.table.nodes.get(usize::from(node));
        record.is_some_and(|record| wanted(record[0]))
    }

    /// A part: one of the nodes before, whose kinds are known to be kinds.
    #[inline(always)]
    fn is_parsing(&mut self, before: &[Node], node: u16) -> bool {
        self.tally(node);
        let record = before.get(usize::from(node));
        record.is_some_and(|record| record[0] <= CONSTRAINT)
    }

    #[inline(always)]
    fn is_expression(&mut self, before: &[Node], node: u16) -> bool {
        self.tally(node);
        let record = before.get(usize::from(node));
        record.is_some_and(|record| record[0] >= BOOL)
    }

    #[inline(always)]
    fn bad_in_node(&mut self, before: &[Node], record: &Node) -> Bad {
        let [kind, a, b, ref rest @ ..] = *record;
        let (a_is_right, b_is_right) = match kind {
            EMPTY => (a == 0, b == 0),
            TERMINAL => (a <= 255, b == 0),
            SEQUENCE | CHOICE => (self.is_parsing(before, a), self.is_parsing(before, b)),
            REPEAT | NOT => (self.is_parsing(before, a), b == 0),
            CALL => return self.bad_in_call(before, record),
            BIND => (is_slot(a), self.is_parsing(before, b)),
            UPDATE => (is_slot(a), self.is_expression(before, b)),
            CONSTRAINT | LOGIC_NOT => (self.is_expression(before, a), b == 0),
            BOOL => (a <= 1, b == 0),
            INTEGER => (true, true),
            TEXT => self.is_text(a, b),
            SLOT => (is_slot(a), b == 0),
            ADD..=OR => (self.is_expression(before, a), self.is_expression(before, b)),
            _ => return Some(0),
        };
        if a_is_right && b_is_right && *rest == [0; 7] {
            return None;
        }
        if a_is_right && b_is_right {
            return rest.iter().position(|&word| word != 0).map(|word| 3 + word);
        }
        Some(if a_is_right { 2 } else { 1 })
    }

    fn is_text(&self, start: u16, length: u16) -> (bool, bool) {
        let literals = self.table.literals.len();
        let end = usize::from(start) + usize::from(length);
        (usize::from(start) <= literals, end <= literals)
    }

    fn bad_in_call(&mut self, before: &[Node], record: &Node) -> Bad {
        let Some(callee) = self.table.rules.get(number(record, 1)) else {
            return Some(1);
        };
        let is_argument = |node| self.is_expression(before, node);
        let bad = bad_of_four(record, ARGUMENTS, number(callee, INHERITED), is_argument);
        bad.or_else(|| bad_of_four(record, RECEIVERS, number(callee, RETURNED), is_slot))
    }
}

fn is_parsing_kind(kind: u16) -> bool {
    (EMPTY..=CONSTRAINT).contains(&kind)
}

fn is_expression_kind(kind: u16) -> bool {
    (BOOL..=LOGIC_NOT).contains(&kind)
}

fn is_type(word: u16) -> bool {
    (BOOL_TYPE..=TEXT_TYPE).contains(&word)
}

fn is_slot(word: u16) -> bool {
    usize::from(word) < SLOTS
}

/// Four words from `first` on, of which `count` are in use: "Places past n or m hold 0."
#[inline(always)]
fn bad_of_four<const N: usize>(
    record: &[u16; N],
    first: usize,
    count: usize,
    mut is_right: impl FnMut(u16) -> bool,
) -> Bad {
    (0..FOUR)
        .find(|&index| {
            let word = record[first + index];
            let right = if index < count {
                is_right(word)
            } else {
                word == 0
            };
            !right
        })
        .map(|index| first + index)
}

/// The smallest node that isn't used exactly once. Told apart from the scan, which needn't count so much for a table that passes.
#[cold]
fn first_misused(table: &Records) -> usize {
    let mut uses = [0u16; MOST_NODES];
    let mut count = |node: u16| uses[usize::from(node)] += 1;
    for rule in table.rules {
        count(rule[BODY]);
        let returned = &rule[RETURNED_NODES..][..number(rule, RETURNED)];
        returned.iter().copied().for_each(&mut count);
    }
    for record in table.nodes {
        parts(table, record).iter().copied().for_each(&mut count);
    }
    let misused = uses.iter().position(|&uses| uses != 1);
    misused.expect("a node isn't used once")
}

/// The parts and arguments of a node whose words are right.
fn parts<'a>(table: &Records, record: &'a Node) -> &'a [u16] {
    match record[0] {
        SEQUENCE | CHOICE | ADD..=OR => &record[1..3],
        REPEAT | NOT | CONSTRAINT | LOGIC_NOT => &record[1..2],
        BIND | UPDATE => &record[2..3],
        CALL => &record[ARGUMENTS..][..number(&table.rules[number(record, 1)], INHERITED)],
        _ => &[],
    }
}
