//! Parsing nodes that keep to the type rules, as long as the maker slips never.
//!
//! `frozen` stands for "the part leaves the slots as at its start".

use super::tables::{Maker, SlotTypes};
use crate::reference::table::*;

const ALPHABET: [u8; 4] = *b"12ab";

impl Maker<'_> {
    pub fn parsing(&mut self, slots: &mut SlotTypes, frozen: bool, height: usize) -> u16 {
        if height == 0 || self.is_full() {
            return self.low(slots, frozen);
        }
        let low = height - 1;
        match self.random.weighed(&[13, 32, 12, 9, 7, 12, 14, 4]) {
            0 => self.low(slots, frozen),
            1 => self.sequence(slots, frozen, low),
            2 => self.choice(slots, frozen, low),
            3 => self.repeat(slots, low),
            4 => self.not(slots, low),
            5 => self.call(slots, frozen),
            6 => self.bind(slots, frozen, low),
            _ => self.counted_repeat(slots),
        }
    }

    fn low(&mut self, slots: &mut SlotTypes, frozen: bool) -> u16 {
        match self.random.weighed(&[50, 8, 28, 14]) {
            0 => self.terminal(),
            1 => self.draft.node(EMPTY, &[]),
            2 => self.update(slots, frozen),
            _ => {
                let part = self.likely(slots, 2);
                self.draft.node(CONSTRAINT, &[part])
            }
        }
    }

    pub fn terminal(&mut self) -> u16 {
        let byte = if self.random.chance(980) {
            self.random.pick(&ALPHABET)
        } else {
            self.random.byte()
        };
        self.draft.node(TERMINAL, &[byte as u16])
    }

    pub fn sequence(&mut self, slots: &mut SlotTypes, frozen: bool, height: usize) -> u16 {
        let first = self.parsing(slots, frozen, height);
        let second = self.parsing(slots, frozen, height);
        self.draft.node(SEQUENCE, &[first, second])
    }

    fn choice(&mut self, slots: &mut SlotTypes, frozen: bool, height: usize) -> u16 {
        let mut other = *slots;
        let first = match self.random.weighed(&[76, 12, 12]) {
            0 => self.parsing(slots, frozen, height),
            1 => self.telling_not(slots),
            _ => self.telling_failure(slots),
        };
        let other_frozen = !self.slips();
        let second = self.parsing(&mut other, other_frozen, height);
        let second = self.catch_up(second, &mut other, slots);
        if self.random.chance(250) {
            return self.draft.node(CHOICE, &[second, first]);
        }
        self.draft.node(CHOICE, &[first, second])
    }

    /// An update of a slot that holds something already.
    fn telling_update(&mut self, slots: &SlotTypes) -> u16 {
        let held: Vec<usize> = (0..SLOTS).filter(|&slot| slots[slot] != 0).collect();
        if held.is_empty() {
            return self.terminal();
        }
        let slot = self.random.pick(&held);
        let value = self.expression(slots[slot], slots, 1);
        self.draft.node(UPDATE, &[slot as u16, value])
    }

    /// A not that mostly fails and hands on a slot its part changed.
    fn telling_not(&mut self, slots: &SlotTypes) -> u16 {
        let part = self.telling_update(slots);
        let once = self.draft.node(NOT, &[part]);
        match self.random.weighed(&[80, 20]) {
            0 => once,
            _ => {
                let twice = self.draft.node(NOT, &[once]);
                self.draft.node(NOT, &[twice])
            }
        }
    }

    /// A node that mostly fails because its last part, a telling not, does: the
    /// slots it gives back show when a not is put over it.
    fn over_telling_not(&mut self, slots: &mut SlotTypes) -> u16 {
        let last = self.telling_not(slots);
        match self.random.below(3) {
            0 => match self.target(slots, TEXT_TYPE, true) {
                Some(slot) => self.draft.node(BIND, &[slot, last]),
                None => last,
            },
            1 => {
                let first = self.telling_failure(slots);
                self.draft.node(CHOICE, &[first, last])
            }
            _ => {
                let first = self.update(slots, true);
                self.draft.node(SEQUENCE, &[first, last])
            }
        }
    }

    /// Something that changes a slot and mostly fails afterwards.
    fn telling_failure(&mut self, slots: &mut SlotTypes) -> u16 {
        let first = match self.random.chance(700) {
            true => self.telling_update(slots),
            false => self.telling_not(slots),
        };
        let second = match self.random.chance(500) {
            true => {
                let no = self.draft.node(BOOL, &[0]);
                self.draft.node(CONSTRAINT, &[no])
            }
            false => self.terminal(),
        };
        let sequence = self.draft.node(SEQUENCE, &[first, second]);
        match self.random.weighed(&[50, 20, 30]) {
            0 => sequence,
            1 => self.draft.node(NOT, &[sequence]),
            _ => match self.target(slots, TEXT_TYPE, true) {
                Some(slot) => self.draft.node(BIND, &[slot, sequence]),
                None => sequence,
            },
        }
    }

    /// Follows `node` with updates until it leaves what `wanted` holds.
    fn catch_up(&mut self, node: u16, slots: &mut SlotTypes, wanted: &SlotTypes) -> u16 {
        let mut whole = node;
        for slot in 0..SLOTS {
            if slots[slot] == 0 && wanted[slot] != 0 && !self.slips() {
                let value = self.expression(wanted[slot], slots, 1);
                let update = self.draft.node(UPDATE, &[slot as u16, value]);
                whole = self.draft.node(SEQUENCE, &[whole, update]);
                slots[slot] = wanted[slot];
            }
        }
        whole
    }

    /// Most rounds begin with a terminal, or most runs would end in BUDGET.
    fn repeat(&mut self, slots: &mut SlotTypes, height: usize) -> u16 {
        let frozen = !self.slips();
        if self.random.chance(200) {
            let round = self.telling_round(slots);
            return self.draft.node(REPEAT, &[round]);
        }
        let guard = self.random.chance(850).then(|| self.terminal());
        let part = self.parsing(slots, frozen, height);
        let round = match guard {
            Some(guard) => self.draft.node(SEQUENCE, &[guard, part]),
            None => part,
        };
        self.draft.node(REPEAT, &[round])
    }

    fn telling_round(&mut self, slots: &mut SlotTypes) -> u16 {
        match self.random.chance(500) {
            true => self.telling_not(slots),
            false => self.telling_failure(slots),
        }
    }

    fn not(&mut self, slots: &mut SlotTypes, height: usize) -> u16 {
        let frozen = !self.slips();
        let part = match self.random.chance(300) {
            true => self.over_telling_not(slots),
            false => self.parsing(slots, frozen, height),
        };
        let once = self.draft.node(NOT, &[part]);
        if self.random.chance(500) {
            return self.draft.node(NOT, &[once]);
        }
        once
    }

    /// A slot that may take the type; it holds it afterwards.
    fn target(&mut self, slots: &mut SlotTypes, given: u16, frozen: bool) -> Option<u16> {
        if self.slips() {
            return Some(self.random.below(SLOTS) as u16);
        }
        let may = |slot: &usize| slots[*slot] == given || (!frozen && slots[*slot] == 0);
        let most = if self.random.chance(900) { 6 } else { SLOTS };
        let targets: Vec<usize> = (0..most).filter(may).collect();
        if targets.is_empty() {
            return None;
        }
        let slot = self.random.pick(&targets);
        slots[slot] = given;
        Some(slot as u16)
    }

    fn update(&mut self, slots: &mut SlotTypes, frozen: bool) -> u16 {
        let given = self.any_type();
        let before = *slots;
        match self.target(slots, given, frozen) {
            Some(slot) => {
                let value = self.expression(given, &before, 3);
                self.draft.node(UPDATE, &[slot, value])
            }
            None => self.terminal(),
        }
    }

    fn bind(&mut self, slots: &mut SlotTypes, frozen: bool, height: usize) -> u16 {
        let part = self.parsing(slots, frozen, height);
        match self.target(slots, TEXT_TYPE, frozen) {
            Some(slot) => self.draft.node(BIND, &[slot, part]),
            None => part,
        }
    }

    fn call(&mut self, slots: &mut SlotTypes, frozen: bool) -> u16 {
        if self.signatures.len() == 1 && !self.start_is_called {
            return self.terminal();
        }
        let callee = self.callee();
        self.call_of(callee, None, slots, frozen)
            .unwrap_or_else(|| self.terminal())
    }

    /// A later rule mostly, so that most calls come to an end.
    fn callee(&mut self) -> usize {
        let first = !self.start_is_called as usize;
        let later = self.rule + 1..self.signatures.len();
        if later.is_empty() || self.random.chance(60) {
            return self.random.between(first, self.signatures.len() - 1);
        }
        self.random.between(later.start, later.end - 1)
    }

    /// `first` stands for the first argument, if it is there already.
    pub fn call_of(
        &mut self,
        callee: usize,
        first: Option<u16>,
        slots: &mut SlotTypes,
        frozen: bool,
    ) -> Option<u16> {
        let signature = self.signatures[callee].clone();
        let before = *slots;
        let mut fields = [0; 9];
        fields[0] = callee as u16;
        for (index, &given) in signature.returned.iter().enumerate() {
            fields[5 + index] = self.target(slots, given, frozen).or_else(|| {
                *slots = before;
                None
            })?;
        }
        for (index, &wanted) in signature.inherited.iter().enumerate() {
            fields[1 + index] = match first {
                Some(node) if index == 0 => node,
                _ => self.expression(wanted, &before, 2),
            };
        }
        Some(self.draft.node(CALL, &fields))
    }

    /// Bench case J's form over some Integer slot.
    fn counted_repeat(&mut self, slots: &mut SlotTypes) -> u16 {
        let held: Vec<usize> = (0..SLOTS)
            .filter(|&slot| slots[slot] == INTEGER_TYPE)
            .collect();
        if held.is_empty() {
            return self.terminal();
        }
        let slot = self.random.pick(&held) as u16;
        let bound = self.random.below(9) as i32;
        let bound = self.integer_node(bound);
        let now = self.draft.node(SLOT, &[slot]);
        let below = self.draft.node(GREATER, &[bound, now]);
        let guard = self.draft.node(CONSTRAINT, &[below]);
        let now = self.draft.node(SLOT, &[slot]);
        let one = self.integer_node(1);
        let sum = self.draft.node(ADD, &[now, one]);
        let step = self.draft.node(UPDATE, &[slot, sum]);
        let round = self.draft.node(SEQUENCE, &[guard, step]);
        self.draft.node(REPEAT, &[round])
    }

    /// (?(slot 0 > 0) the rule itself with slot 0 less 1) / something else.
    pub fn countdown(&mut self, slots: &mut SlotTypes, height: usize) -> u16 {
        let now = self.draft.node(SLOT, &[0]);
        let zero = self.integer_node(0);
        let above = self.draft.node(GREATER, &[now, zero]);
        let guard = self.draft.node(CONSTRAINT, &[above]);
        let now = self.draft.node(SLOT, &[0]);
        let one = self.integer_node(1);
        let less = self.draft.node(SUBTRACT, &[now, one]);
        let mut other = *slots;
        let Some(call) = self.call_of(self.rule, Some(less), slots, false) else {
            let drop = self.draft.node(UPDATE, &[0, less]);
            return self.draft.node(SEQUENCE, &[guard, drop]);
        };
        let again = self.draft.node(SEQUENCE, &[guard, call]);
        let rest = self.parsing(&mut other, true, height);
        let rest = self.catch_up(rest, &mut other, slots);
        self.draft.node(CHOICE, &[again, rest])
    }
}
