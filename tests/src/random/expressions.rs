//! Expressions of a wanted type over slots whose types are known.

use super::tables::{Maker, SlotTypes};
use crate::reference::table::*;

const SMALL: [i32; 10] = [0, 1, 2, 3, 4, 5, 7, -1, -2, -7];
const EDGES: [i32; 8] = [
    i32::MAX,
    i32::MIN,
    i32::MIN + 1,
    65_536,
    -65_536,
    46_341,
    300,
    0,
];

impl Maker<'_> {
    pub fn expression(&mut self, wanted: u16, slots: &SlotTypes, height: usize) -> u16 {
        let wanted = self.perhaps_another_type(wanted);
        if height == 0 || self.is_full() || self.random.chance(300) {
            return self.leaf(wanted, slots);
        }
        match wanted {
            BOOL_TYPE => self.bool_expression(slots, height - 1),
            INTEGER_TYPE => self.arithmetic(slots, height - 1),
            _ => self.leaf(wanted, slots),
        }
    }

    fn perhaps_another_type(&mut self, wanted: u16) -> u16 {
        if self.slips() {
            self.any_type()
        } else {
            wanted
        }
    }

    pub fn any_type(&mut self) -> u16 {
        self.random.between(1, 3) as u16
    }

    fn leaf(&mut self, wanted: u16, slots: &SlotTypes) -> u16 {
        if self.slips() {
            let most = self.random.pick(&[4, 6, SLOTS]);
            let slot = self.random.below(most) as u16;
            return self.draft.node(SLOT, &[slot]);
        }
        let held: Vec<usize> = (0..SLOTS).filter(|&slot| slots[slot] == wanted).collect();
        let liking = if wanted == TEXT_TYPE { 850 } else { 700 };
        if !held.is_empty() && self.random.chance(liking) {
            let slot = self.random.pick(&held) as u16;
            return self.draft.node(SLOT, &[slot]);
        }
        self.literal(wanted)
    }

    fn literal(&mut self, wanted: u16) -> u16 {
        match wanted {
            BOOL_TYPE => {
                let bit = self.random.chance(600) as u16;
                self.draft.node(BOOL, &[bit])
            }
            INTEGER_TYPE => {
                let value = self.integer();
                self.integer_node(value)
            }
            _ => self.text(),
        }
    }

    fn integer(&mut self) -> i32 {
        match self.random.weighed(&[90, 8, 2]) {
            0 => self.random.pick(&SMALL),
            1 => self.random.pick(&EDGES),
            _ => self.random.next() as i32,
        }
    }

    pub fn integer_node(&mut self, value: i32) -> u16 {
        let bits = value as u32;
        self.draft
            .node(INTEGER, &[(bits >> 16) as u16, bits as u16])
    }

    fn text(&mut self) -> u16 {
        let most = self.draft.literals.len();
        let start = self.random.between(0, most);
        let longest = if self.random.chance(900) { 3 } else { most };
        let length = self.random.between(0, longest.min(most - start));
        self.draft.node(TEXT, &[start as u16, length as u16])
    }

    fn arithmetic(&mut self, slots: &SlotTypes, height: usize) -> u16 {
        let kind = self.random.pick(&[ADD, ADD, SUBTRACT, MULTIPLY, DIVIDE]);
        if self.random.chance(15) {
            let left = self.random.pick(&EDGES);
            let right = self.random.pick(&[-1, 1, 0, i32::MAX, i32::MIN]);
            let parts = [self.integer_node(left), self.integer_node(right)];
            return self.draft.node(kind, &parts);
        }
        self.binary(kind, INTEGER_TYPE, slots, height)
    }

    /// A left operand of any type, a right one that ends the run.
    fn telling_operands(&mut self) -> u16 {
        let kind = self.random.between(ADD as usize, OR as usize) as u16;
        let wanted = self.any_type();
        let left = self.literal(wanted);
        let right = match self.random.chance(500) {
            true => self.draft.node(SLOT, &[15]),
            false => {
                let parts = [self.integer_node(1), self.integer_node(0)];
                self.draft.node(DIVIDE, &parts)
            }
        };
        self.draft.node(kind, &[left, right])
    }

    fn bool_expression(&mut self, slots: &SlotTypes, height: usize) -> u16 {
        if self.slips() {
            return self.telling_operands();
        }
        match self.random.weighed(&[25, 25, 18, 18, 14]) {
            0 => {
                let wanted = self.any_type();
                self.binary(EQUAL, wanted, slots, height)
            }
            1 => self.binary(GREATER, INTEGER_TYPE, slots, height),
            2 => self.binary(AND, BOOL_TYPE, slots, height),
            3 => self.binary(OR, BOOL_TYPE, slots, height),
            _ => {
                let part = self.expression(BOOL_TYPE, slots, height);
                self.draft.node(LOGIC_NOT, &[part])
            }
        }
    }

    pub fn binary(&mut self, kind: u16, wanted: u16, slots: &SlotTypes, height: usize) -> u16 {
        let left = self.expression(wanted, slots, height);
        let right = self.expression(wanted, slots, height);
        self.draft.node(kind, &[left, right])
    }

    /// A Bool that holds more often than not, or a run would seldom be DONE.
    pub fn likely(&mut self, slots: &SlotTypes, height: usize) -> u16 {
        let any = self.expression(BOOL_TYPE, slots, height);
        match self.random.weighed(&[45, 35, 20]) {
            0 => any,
            1 => {
                let held = self.draft.node(BOOL, &[1]);
                self.draft.node(OR, &[any, held])
            }
            _ => {
                let held = self.draft.node(BOOL, &[1]);
                self.draft.node(OR, &[held, any])
            }
        }
    }
}
