//! "Expressions run left operand first; types are looked at after the operands."
//!
//! Reading chosen here: arithmetic and greater look at both types first; FAULT
//! only comes when both are Integers. Its place is the operator.

use super::run::{stop, Run, Slots, Stopping};
use super::table::*;
use super::text::bytes_at;
use crate::numbers::*;
use crate::subject::{Home, Span, Value};

impl Run<'_> {
    pub(super) fn evaluate(&mut self, node: usize, slots: &Slots) -> Stopping<Value> {
        let kind = self.table.kind(node);
        self.kinds[kind as usize] += 1;
        let first = self.table.part(node, 0);
        let second = self.table.part(node, 1);
        match kind {
            BOOL => Ok(Value::Bool(first == 1)),
            INTEGER => Ok(Value::Integer((first << 16 | second) as u32 as i32)),
            TEXT => Ok(Value::Text(Span {
                home: Home::Literals,
                start: first as u32,
                length: second as u32,
            })),
            SLOT => match slots[first] {
                Value::Absent => stop(STUCK, node),
                value => Ok(value),
            },
            AND | OR => self.and_or(node, slots),
            LOGIC_NOT => match self.evaluate(first, slots)? {
                Value::Bool(value) => Ok(Value::Bool(!value)),
                _ => stop(STUCK, node),
            },
            _ => {
                let left = self.evaluate(first, slots)?;
                let right = self.evaluate(second, slots)?;
                self.both(node, left, right)
            }
        }
    }

    /// "And, or look at the left value first"
    fn and_or(&mut self, node: usize, slots: &Slots) -> Stopping<Value> {
        let decides = self.table.kind(node) == OR;
        match self.evaluate(self.table.part(node, 0), slots)? {
            Value::Bool(left) if left == decides => return Ok(Value::Bool(left)),
            Value::Bool(_) => {}
            _ => return stop(STUCK, node),
        }
        match self.evaluate(self.table.part(node, 1), slots)? {
            Value::Bool(right) => Ok(Value::Bool(right)),
            _ => stop(STUCK, node),
        }
    }

    fn both(&self, node: usize, left: Value, right: Value) -> Stopping<Value> {
        if self.table.kind(node) == EQUAL {
            return match self.equal(left, right) {
                Some(same) => Ok(Value::Bool(same)),
                None => stop(STUCK, node),
            };
        }
        let (Value::Integer(left), Value::Integer(right)) = (left, right) else {
            return stop(STUCK, node);
        };
        let result = match self.table.kind(node) {
            GREATER => return Ok(Value::Bool(left > right)),
            ADD => left.checked_add(right),
            SUBTRACT => left.checked_sub(right),
            MULTIPLY => left.checked_mul(right),
            _ => left.checked_div(right),
        };
        match result {
            Some(value) => Ok(Value::Integer(value)),
            None => stop(FAULT, node),
        }
    }

    /// Nothing when the types are two.
    fn equal(&self, left: Value, right: Value) -> Option<bool> {
        let bytes = |span| bytes_at(self.message, self.table.literals, span);
        match (left, right) {
            (Value::Bool(left), Value::Bool(right)) => Some(left == right),
            (Value::Integer(left), Value::Integer(right)) => Some(left == right),
            (Value::Text(left), Value::Text(right)) => Some(bytes(left) == bytes(right)),
            _ => None,
        }
    }
}
