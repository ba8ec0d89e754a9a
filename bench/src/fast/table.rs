//! A table's records as arrays, so that a record costs one look at its bounds and its fields none.

use reader_tests::reference::table::{
    MOST_LITERALS, MOST_NODES, MOST_RULES, NODE_WORDS, RULE_WORDS,
};

pub type Rule = [u16; RULE_WORDS];
pub type Node = [u16; NODE_WORDS];

#[derive(Clone, Copy)]
pub struct Records<'a> {
    pub rules: &'a [Rule],
    pub nodes: &'a [Node],
    pub literals: &'a [u8],
}

/// Where the words of a rule record stand.
pub const BODY: usize = 0;
pub const INHERITED: usize = 1;
pub const INHERITED_TYPES: usize = 2;
pub const RETURNED: usize = 6;
pub const RETURNED_NODES: usize = 7;
pub const RETURNED_TYPES: usize = 11;

/// Where arguments and receiving slots stand in the record of a call.
pub const ARGUMENTS: usize = 2;
pub const RECEIVERS: usize = 6;

impl<'a> Records<'a> {
    /// Nothing if the answer is SIZE.
    pub fn of(words: &'a [u16], literals: &'a [u8]) -> Option<Records<'a>> {
        let [rules, nodes, bytes, records @ ..] = words else {
            return None;
        };
        let [rules, nodes, bytes] = [rules, nodes, bytes].map(|&count| usize::from(count));
        let in_range = (1..=MOST_RULES).contains(&rules)
            && (1..=MOST_NODES).contains(&nodes)
            && bytes <= MOST_LITERALS;
        let fits = records.len() == RULE_WORDS * rules + NODE_WORDS * nodes;
        if !in_range || !fits || literals.len() != bytes {
            return None;
        }
        let (rules, nodes) = records.split_at(RULE_WORDS * rules);
        Some(Records {
            rules: rules.as_chunks().0,
            nodes: nodes.as_chunks().0,
            literals,
        })
    }
}

/// The word in a record as the number of a node, a rule or a slot.
pub fn number<const N: usize>(record: &[u16; N], word: usize) -> usize {
    usize::from(record[word])
}
