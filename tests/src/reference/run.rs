//! "Running": bench and display runs.
//!
//! Readings chosen here:
//! - A call is visited, then its arguments are evaluated, then the visit of the
//!   callee's body is due: STUCK or FAULT in an argument comes before BUDGET.
//! - The returned nodes of the start rule are evaluated after its body matched;
//!   STUCK or FAULT there ends the run with the visits made so far.
//! - A receiving slot named twice keeps the later value.
//! - A bound Text stands where its part began, also when it is empty.
//! - A choice, sequence, bind, repeat or call that fails gives back its own
//!   first slots even when the part that failed was a not.
//! - LONG and WORK leave the work area alone; a run never reads it.

use super::table::*;
use super::{check::check, types::type_check};
use crate::numbers::*;
use crate::subject::{Home, Record, Span, Value};

pub const MOST_MESSAGE: usize = 65_535;
pub const MOST_DEPTH: u32 = 256;
pub const KINDS: usize = 29;

pub struct Lent<'a> {
    pub display: bool,
    pub words: &'a [u16],
    pub literals: &'a [u8],
    pub message: &'a [u8],
    pub budget: u32,
}

/// How often a node of each kind was visited or evaluated.
pub type KindCounts = [u64; KINDS];

/// `Value::Absent` is unset.
pub(super) type Slots = [Value; SLOTS];

/// What ends the run at once.
pub(super) struct Stop {
    number: u32,
    node: usize,
}

pub(super) type Stopping<T> = Result<T, Stop>;

pub fn run(lent: &Lent, work: &mut [u32], work_words: usize) -> Record {
    observe(lent, work, work_words).0
}

pub fn observe(lent: &Lent, work: &mut [u32], work_words: usize) -> (Record, KindCounts) {
    if let Some(refusal) = refused(lent, work.len(), work_words) {
        return (refusal, [0; KINDS]);
    }
    let mut run = Run {
        table: Table {
            words: lent.words,
            literals: lent.literals,
        },
        message: lent.message,
        budget: lent.budget,
        visits: 0,
        kinds: [0; KINDS],
    };
    let record = run.start();
    work[..work_words].fill(0);
    (record, run.kinds)
}

/// "Checks go 1, 2, 3, 4, then 5 (type check and display run only), 6, 7"
fn refused(lent: &Lent, work: usize, work_words: usize) -> Option<Record> {
    let checked = if lent.display {
        type_check(lent.words, lent.literals)
    } else {
        check(lent.words, lent.literals)
    };
    if checked.0 != DONE {
        return Some(Record::refusal(checked.0, checked.1));
    }
    if lent.message.len() > MOST_MESSAGE {
        return Some(Record::refusal(LONG, 0));
    }
    (work < work_words).then(|| Record::refusal(WORK, 0))
}

pub(super) struct Run<'a> {
    pub(super) table: Table<'a>,
    pub(super) message: &'a [u8],
    budget: u32,
    visits: u32,
    pub(super) kinds: KindCounts,
}

impl Run<'_> {
    fn start(&mut self) -> Record {
        let mut slots = [Value::Absent; SLOTS];
        let mut record = match self.rule(0, 1, 0, &mut slots) {
            Ok(Some((consumed, values))) => Record {
                consumed: consumed as u32,
                values,
                ..Record::refusal(DONE, 0)
            },
            Ok(None) => Record::refusal(NOMATCH, 0),
            Err(stop) => Record::refusal(stop.number, stop.node as u32),
        };
        record.visits = self.visits;
        record
    }

    /// Runs a body in its slots: the place it ends at and the returned values.
    fn rule(
        &mut self,
        rule: usize,
        depth: u32,
        place: usize,
        slots: &mut Slots,
    ) -> Stopping<Option<(usize, [Value; 4])>> {
        let Some(end) = self.visit(self.table.body(rule), depth, place, slots)? else {
            return Ok(None);
        };
        let mut values = [Value::Absent; 4];
        for index in 0..self.table.returned(rule) {
            values[index] = self.evaluate(self.table.returned_node(rule, index), slots)?;
        }
        Ok(Some((end, values)))
    }

    /// "the budget (32-bit unsigned) is looked at first, then depth"
    fn visit(
        &mut self,
        node: usize,
        depth: u32,
        place: usize,
        slots: &mut Slots,
    ) -> Stopping<Option<usize>> {
        if self.visits == self.budget {
            return stop(BUDGET, node);
        }
        if depth > MOST_DEPTH {
            return stop(DEEP, node);
        }
        self.visits += 1;
        self.kinds[self.table.kind(node) as usize] += 1;
        let began = *slots;
        let end = self.apply(node, depth, place, slots)?;
        // "A failing node gives back the slots it began with. Exception: not"
        if end.is_none() && self.table.kind(node) != NOT {
            *slots = began;
        }
        Ok(end)
    }

    fn apply(
        &mut self,
        node: usize,
        depth: u32,
        place: usize,
        slots: &mut Slots,
    ) -> Stopping<Option<usize>> {
        let first = self.table.part(node, 0);
        let second = self.table.part(node, 1);
        match self.table.kind(node) {
            EMPTY => Ok(Some(place)),
            TERMINAL => Ok(self.terminal(first, place)),
            SEQUENCE => match self.visit(first, depth + 1, place, slots)? {
                Some(middle) => self.visit(second, depth + 1, middle, slots),
                None => Ok(None),
            },
            CHOICE => self.choice(node, depth, place, slots),
            REPEAT => self.repeat(first, depth, place, slots),
            NOT => {
                let matched = self.visit(first, depth + 1, place, slots)?.is_some();
                Ok((!matched).then_some(place))
            }
            CALL => self.call(node, depth, place, slots),
            BIND => self.bind(node, depth, place, slots),
            UPDATE => {
                slots[first] = self.evaluate(second, slots)?;
                Ok(Some(place))
            }
            _ => match self.evaluate(first, slots)? {
                Value::Bool(holds) => Ok(holds.then_some(place)),
                _ => stop(STUCK, node),
            },
        }
    }

    fn terminal(&self, byte: usize, place: usize) -> Option<usize> {
        let here = self.message.get(place)?;
        (*here as usize == byte).then_some(place + 1)
    }

    fn choice(
        &mut self,
        node: usize,
        depth: u32,
        place: usize,
        slots: &mut Slots,
    ) -> Stopping<Option<usize>> {
        let began = *slots;
        let end = self.visit(self.table.part(node, 0), depth + 1, place, slots)?;
        if end.is_some() {
            return Ok(end);
        }
        *slots = began;
        self.visit(self.table.part(node, 1), depth + 1, place, slots)
    }

    /// "A repeat ends only when its part fails, and then stands as after the
    /// last full round."
    fn repeat(
        &mut self,
        part: usize,
        depth: u32,
        place: usize,
        slots: &mut Slots,
    ) -> Stopping<Option<usize>> {
        let mut stands = place;
        loop {
            let mut round = *slots;
            match self.visit(part, depth + 1, stands, &mut round)? {
                Some(end) => {
                    stands = end;
                    *slots = round;
                }
                None => return Ok(Some(stands)),
            }
        }
    }

    fn bind(
        &mut self,
        node: usize,
        depth: u32,
        place: usize,
        slots: &mut Slots,
    ) -> Stopping<Option<usize>> {
        let end = self.visit(self.table.part(node, 1), depth + 1, place, slots)?;
        if let Some(end) = end {
            slots[self.table.part(node, 0)] = Value::Text(Span {
                home: Home::Message,
                start: place as u32,
                length: (end - place) as u32,
            });
        }
        Ok(end)
    }

    fn call(
        &mut self,
        node: usize,
        depth: u32,
        place: usize,
        slots: &mut Slots,
    ) -> Stopping<Option<usize>> {
        let callee = self.table.part(node, 0);
        let mut fresh = [Value::Absent; SLOTS];
        for (index, slot) in fresh
            .iter_mut()
            .enumerate()
            .take(self.table.inherited(callee))
        {
            *slot = self.evaluate(self.table.argument(node, index), slots)?;
        }
        let Some((end, values)) = self.rule(callee, depth + 1, place, &mut fresh)? else {
            return Ok(None);
        };
        for (index, &value) in values.iter().enumerate().take(self.table.returned(callee)) {
            slots[self.table.receiver(node, index)] = value;
        }
        Ok(Some(end))
    }
}

pub(super) fn stop<T>(number: u32, node: usize) -> Stopping<T> {
    Err(Stop { number, node })
}
