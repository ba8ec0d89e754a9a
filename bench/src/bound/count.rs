//! What is counted in a table to bound a visit of each of its nodes: values of a call, nodes of expressions with operators, expressions that are deep, and bytes of Texts that are
//! compared.

use crate::grammars::Work;
use reader_tests::reference::table::*;

/// Operators one inside the other that the evaluator's first pile has room for.
pub const SHALLOW: usize = 16;

#[derive(Clone, Copy, Default, PartialEq, Eq, PartialOrd, Ord)]
pub struct Load {
    /// Arguments of a call and what its callee returns.
    pub values: usize,
    /// Nodes of expressions that are no single leaf.
    pub nodes: usize,
    /// Expressions with more than `SHALLOW` operators one inside the other.
    pub deep: usize,
    /// The most bytes that their comparisons of Texts look at.
    pub bytes: usize,
}

impl Load {
    pub fn told(&self) -> String {
        let all = [self.values, self.nodes, self.deep, self.bytes];
        all.map(|count| count.to_string()).join(":")
    }
}

pub struct Counted<'a> {
    table: Table<'a>,
    /// The longest Text that a slot may hold.
    longest: usize,
}

impl Counted<'_> {
    /// For a table that passes the table check.
    pub fn of(work: &Work) -> Counted<'_> {
        let table = Table {
            words: &work.words,
            literals: &work.literals,
        };
        let texts = (0..table.nodes()).filter(|&node| table.kind(node) == TEXT);
        let longest = texts.map(|node| table.part(node, 1)).max().unwrap_or(0);
        Counted {
            table,
            longest: longest.max(work.message.len()),
        }
    }

    /// Of each parsing node its kind and its load; each pair once.
    pub fn visits(&self) -> Vec<(u16, Load)> {
        let kinds = (0..self.table.nodes()).map(|node| (node, self.table.kind(node)));
        let parsing = kinds.filter(|&(_, kind)| kind < BOOL);
        let mut loads: Vec<_> = parsing
            .map(|(node, kind)| (kind, self.load(node, kind)))
            .collect();
        loads.sort();
        loads.dedup();
        loads
    }

    /// What the start rule returns.
    pub fn start(&self) -> Load {
        let mut load = Load::default();
        self.add_returned(0, &mut load);
        load
    }

    fn load(&self, node: usize, kind: u16) -> Load {
        let mut load = Load::default();
        match kind {
            UPDATE => self.add(self.table.part(node, 1), &mut load),
            CONSTRAINT => self.add(self.table.part(node, 0), &mut load),
            CALL => {
                let callee = self.table.part(node, 0);
                for index in 0..self.table.inherited(callee) {
                    load.values += 1;
                    self.add(self.table.argument(node, index), &mut load);
                }
                self.add_returned(callee, &mut load);
            }
            _ => {}
        }
        load
    }

    fn add_returned(&self, rule: usize, load: &mut Load) {
        for index in 0..self.table.returned(rule) {
            load.values += 1;
            self.add(self.table.returned_node(rule, index), load);
        }
    }

    fn add(&self, root: usize, load: &mut Load) {
        if self.table.kind(root) < ADD {
            return;
        }
        let levels = self.add_nodes(root, load);
        load.deep += usize::from(levels > SHALLOW);
    }

    /// Operators one inside the other.
    fn add_nodes(&self, node: usize, load: &mut Load) -> usize {
        load.nodes += 1;
        let kind = self.table.kind(node);
        if kind < ADD {
            return 0;
        }
        let left = self.add_nodes(self.table.part(node, 0), load);
        if kind == LOGIC_NOT {
            return left + 1;
        }
        let right = self.add_nodes(self.table.part(node, 1), load);
        if kind == EQUAL {
            load.bytes += self.text(node, 0).min(self.text(node, 1));
        }
        left.max(right) + 1
    }

    /// The longest Text that an operand may be.
    fn text(&self, node: usize, field: usize) -> usize {
        let operand = self.table.part(node, field);
        match self.table.kind(operand) {
            TEXT => self.table.part(operand, 1),
            SLOT => self.longest,
            _ => 0,
        }
    }
}
