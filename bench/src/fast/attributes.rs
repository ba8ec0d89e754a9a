//! What a run does with attributes: updates, binds, arguments and returned values. Called out of line, so that the visits, most of which do nothing of this, keep the
//! processor's registers to themselves.

use super::drive::Next;
use super::expressions::{Held, Sight};
use super::slots::{Mark, Pile};
use super::table::*;
use reader_tests::reference::table::FOUR;

pub struct Attributes<'a> {
    pub sight: Sight<'a>,
    pub pile: Pile<'a>,
    /// Number and place, once the run has ended.
    pub ending: (u32, u32),
}

/// What the run ends by.
pub type Ends = Option<Held>;

impl Attributes<'_> {
    #[cold]
    #[inline(never)]
    pub fn end(&mut self, number: u32, node: usize) -> Next {
        self.ending = (number, node as u32);
        Next::End
    }

    #[cold]
    #[inline(never)]
    pub fn ended_by(&mut self, value: Held) -> Next {
        self.ending = value.ending();
        Next::End
    }

    #[inline(never)]
    pub fn value(&self, node: usize) -> Held {
        self.sight.value(self.pile.slots(), node)
    }

    #[inline(never)]
    pub fn update(&mut self, record: &Node) -> Ends {
        let value = self.sight.value(self.pile.slots(), number(record, 2));
        if value.ends_the_run() {
            return Some(value);
        }
        self.pile.set(number(record, 1), value);
        None
    }

    #[inline(never)]
    pub fn bind(&mut self, slot: usize, start: usize, end: usize) {
        self.pile.set(slot, Held::of_message(start, end));
    }

    /// Up to four values of nodes that a record names one after the other.
    #[inline(always)]
    fn values(&self, nodes: &[u16]) -> Result<[Held; FOUR], Held> {
        let slots = self.pile.slots();
        let mut values = [Held::NOTHING; FOUR];
        for (value, &node) in values.iter_mut().zip(nodes) {
            *value = self.sight.value(slots, usize::from(node));
            if value.ends_the_run() {
                return Err(*value);
            }
        }
        Ok(values)
    }

    /// The arguments of a call, set in fresh slots.
    #[inline(never)]
    pub fn call(&mut self, record: &Node, callee: &Rule) -> Ends {
        match self.values(&record[ARGUMENTS..][..number(callee, INHERITED)]) {
            Ok(inherited) => {
                self.pile.fresh(&inherited);
                None
            }
            Err(value) => Some(value),
        }
    }

    #[inline(never)]
    pub fn returned(&self, rule: &Rule) -> Result<[Held; FOUR], Held> {
        self.values(&rule[RETURNED_NODES..][..number(rule, RETURNED)])
    }

    /// The called body has matched: its returned values, set in the caller's slots, which begin at `first`.
    #[inline(never)]
    pub fn receive(&mut self, node: usize, first: usize, mark: Mark) -> Ends {
        let record = &self.sight.table.nodes[node];
        let callee = &self.sight.table.rules[number(record, 1)];
        let values = match self.values(&callee[RETURNED_NODES..][..number(callee, RETURNED)]) {
            Ok(values) => values,
            Err(value) => return Some(value),
        };
        self.pile.back_to(first, mark);
        let receivers = &record[RECEIVERS..][..number(callee, RETURNED)];
        for (&slot, value) in receivers.iter().zip(values) {
            self.pile.set(usize::from(slot), value);
        }
        None
    }
}
