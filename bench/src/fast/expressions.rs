//! Values and expressions. A value is two numbers, handed on in registers, and so is what ends the run: no result is larger than a value.

use super::table::*;
use reader_tests::numbers::{FAULT, STUCK};
use reader_tests::reference::table::*;

/// What a slot holds, or what an expression comes to.
#[derive(Clone, Copy)]
pub struct Held {
    pub tag: u32,
    pub payload: u32,
}

pub const UNSET: u32 = 0;
const OF_BOOL: u32 = 1;
const OF_INTEGER: u32 = 2;
const OF_MESSAGE: u32 = 3;
const OF_LITERALS: u32 = 4;
/// From here on no value: the run ends, and the payload is the node.
const IS_STUCK: u32 = 5;
const IS_FAULT: u32 = 6;

impl Held {
    pub const NOTHING: Held = Held {
        tag: UNSET,
        payload: 0,
    };

    fn bool(holds: bool) -> Held {
        Held {
            tag: OF_BOOL,
            payload: u32::from(holds),
        }
    }

    /// Start and length have 16 bits: a message has at most 65,535 bytes.
    pub fn of_message(start: usize, end: usize) -> Held {
        Held {
            tag: OF_MESSAGE,
            payload: (start as u32) << 16 | (end - start) as u32,
        }
    }

    fn stuck(node: usize) -> Held {
        Held {
            tag: IS_STUCK,
            payload: node as u32,
        }
    }

    pub fn ends_the_run(self) -> bool {
        self.tag >= IS_STUCK
    }

    /// Number and place.
    pub fn ending(self) -> (u32, u32) {
        let number = if self.tag == IS_STUCK { STUCK } else { FAULT };
        (number, self.payload)
    }

    /// Nothing if it is no Bool.
    pub fn as_bool(self) -> Option<bool> {
        (self.tag == OF_BOOL).then_some(self.payload == 1)
    }

    fn is_text(self) -> bool {
        self.tag == OF_MESSAGE || self.tag == OF_LITERALS
    }
}

/// What an expression may look at.
#[derive(Clone, Copy)]
pub struct Sight<'a> {
    pub table: Records<'a>,
    pub message: &'a [u8],
}

/// The slots of the rule at hand: tag and payload of each.
pub type Slots = [[u32; 2]; SLOTS];

impl Sight<'_> {
    /// Leaves are most of the nodes of an expression: they are evaluated without a call.
    #[inline(always)]
    pub fn value(&self, slots: &Slots, node: usize) -> Held {
        let record = &self.table.nodes[node];
        match record[0] {
            INTEGER => Held {
                tag: OF_INTEGER,
                payload: two_words(record),
            },
            SLOT => {
                let [tag, payload] = slots[number(record, 1) % SLOTS];
                match tag {
                    UNSET => Held::stuck(node),
                    _ => Held { tag, payload },
                }
            }
            TEXT => Held {
                tag: OF_LITERALS,
                payload: two_words(record),
            },
            BOOL => Held::bool(record[1] == 1),
            _ => self.operator(slots, node, record),
        }
    }

    fn operator(&self, slots: &Slots, node: usize, record: &Node) -> Held {
        let kind = record[0];
        let left = self.value(slots, number(record, 1));
        if left.ends_the_run() {
            return left;
        }
        if kind >= AND {
            return self.logic(slots, node, record, left);
        }
        let right = self.value(slots, number(record, 2));
        if right.ends_the_run() {
            return right;
        }
        if left.tag == OF_INTEGER && right.tag == OF_INTEGER {
            return of_integers(kind, node, left.payload as i32, right.payload as i32);
        }
        match self.equal(left, right) {
            Some(same) if kind == EQUAL => Held::bool(same),
            _ => Held::stuck(node),
        }
    }

    /// And, or, not: "if it decides the right stays unevaluated".
    #[inline(always)]
    fn logic(&self, slots: &Slots, node: usize, record: &Node, left: Held) -> Held {
        let Some(holds) = left.as_bool() else {
            return Held::stuck(node);
        };
        if record[0] == LOGIC_NOT {
            return Held::bool(!holds);
        }
        if holds == (record[0] == OR) {
            return left;
        }
        let right = self.value(slots, number(record, 2));
        if right.ends_the_run() || right.tag == OF_BOOL {
            right
        } else {
            Held::stuck(node)
        }
    }

    /// Nothing if there are two types.
    fn equal(&self, left: Held, right: Held) -> Option<bool> {
        if left.is_text() && right.is_text() {
            return Some(self.bytes(left) == self.bytes(right));
        }
        (left.tag == right.tag).then_some(left.payload == right.payload)
    }

    fn bytes(&self, text: Held) -> &[u8] {
        let home = match text.tag {
            OF_MESSAGE => self.message,
            _ => self.table.literals,
        };
        let [start, length] = [text.payload >> 16, text.payload & 0xffff];
        &home[start as usize..][..length as usize]
    }
}

/// An Integer, or the start and length of a Text.
fn two_words(record: &Node) -> u32 {
    u32::from(record[1]) << 16 | u32::from(record[2])
}

#[inline(always)]
fn of_integers(kind: u16, node: usize, left: i32, right: i32) -> Held {
    let result = match kind {
        ADD => left.checked_add(right),
        SUBTRACT => left.checked_sub(right),
        MULTIPLY => left.checked_mul(right),
        DIVIDE => left.checked_div(right),
        EQUAL => return Held::bool(left == right),
        _ => return Held::bool(left > right),
    };
    match result {
        Some(integer) => Held {
            tag: OF_INTEGER,
            payload: integer as u32,
        },
        None => Held {
            tag: IS_FAULT,
            payload: node as u32,
        },
    }
}
