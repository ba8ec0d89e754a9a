//! A table taken apart into its records, to build it up or to change it.

use crate::reference::table::{wants, Want, FOUR, NODE_WORDS, RULE_WORDS};

pub type RuleRecord = [u16; RULE_WORDS];
pub type NodeRecord = [u16; NODE_WORDS];

#[derive(Clone, Debug, Default, PartialEq, Eq)]
pub struct Draft {
    pub rules: Vec<RuleRecord>,
    pub nodes: Vec<NodeRecord>,
    pub literals: Vec<u8>,
}

impl Draft {
    /// The number of the node pushed.
    pub fn node(&mut self, kind: u16, fields: &[u16]) -> u16 {
        let mut record = [0; NODE_WORDS];
        record[0] = kind;
        record[1..=fields.len()].copy_from_slice(fields);
        self.nodes.push(record);
        (self.nodes.len() - 1) as u16
    }

    /// Returned nodes come with their types.
    pub fn rule(&mut self, body: u16, inherited: &[u16], returned: &[(u16, u16)]) {
        let mut record = [0; RULE_WORDS];
        record[0] = body;
        record[1] = inherited.len() as u16;
        record[2..2 + inherited.len()].copy_from_slice(inherited);
        record[6] = returned.len() as u16;
        for (index, &(node, given)) in returned.iter().enumerate() {
            record[7 + index] = node;
            record[11 + index] = given;
        }
        self.rules.push(record);
    }

    pub fn words(&self) -> Vec<u16> {
        let heads = [self.rules.len(), self.nodes.len(), self.literals.len()];
        let mut words: Vec<u16> = heads.iter().map(|&head| head as u16).collect();
        words.extend(self.rules.iter().flatten());
        words.extend(self.nodes.iter().flatten());
        words
    }

    /// For words whose count is 3+15R+10K, whatever stands in them.
    pub fn of(words: &[u16], literals: &[u8]) -> Option<Draft> {
        let [rules, nodes] = [*words.first()?, *words.get(1)?].map(usize::from);
        let split = 3 + RULE_WORDS * rules;
        if words.len() != split + NODE_WORDS * nodes || words[2] as usize != literals.len() {
            return None;
        }
        let record = |words: &[u16]| words.try_into().ok();
        Some(Draft {
            rules: words[3..split]
                .chunks(RULE_WORDS)
                .flat_map(record)
                .collect(),
            nodes: words[split..]
                .chunks(NODE_WORDS)
                .flat_map(|words| words.try_into().ok())
                .collect(),
            literals: literals.to_vec(),
        })
    }

    /// The fields of a node that name a part or an argument in use.
    pub fn part_fields(&self, node: usize) -> Vec<usize> {
        let record = &self.nodes[node];
        let callee = self.rules.get(record[1] as usize);
        let arguments = callee.map_or(0, |rule| rule[1] as usize);
        let wants = wants(record[0]);
        let is_use = |field: &usize| match wants[*field] {
            Want::Part(_) => true,
            Want::Argument(index) => index < arguments,
            _ => false,
        };
        (0..9).filter(is_use).collect()
    }

    pub fn parts(&self, node: usize) -> Vec<usize> {
        let fields = self.part_fields(node);
        let record = &self.nodes[node];
        fields
            .iter()
            .map(|field| record[1 + field] as usize)
            .collect()
    }

    /// The nodes a rule uses: its body and its returned nodes.
    pub fn used_by_rule(&self, rule: usize) -> Vec<usize> {
        let record = &self.rules[rule];
        let returned = (record[6] as usize).min(FOUR);
        let used = [record[0]]
            .into_iter()
            .chain(record[7..7 + returned].to_vec());
        used.map(usize::from).collect()
    }

    /// Gives every word that names a node the number `new` makes of it.
    pub fn renumber(&mut self, new: impl Fn(u16) -> u16) {
        for rule in &mut self.rules {
            let returned = (rule[6] as usize).min(FOUR);
            rule[0] = new(rule[0]);
            for word in &mut rule[7..7 + returned] {
                *word = new(*word);
            }
        }
        for node in 0..self.nodes.len() {
            for field in self.part_fields(node) {
                let word = &mut self.nodes[node][1 + field];
                *word = new(*word);
            }
        }
    }
}
