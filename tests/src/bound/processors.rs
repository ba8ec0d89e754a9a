//! What an instruction does to the stack pointer and where it goes on.
//!
//! Known are the calls, jumps, returns and traps that the compiler writes, and how
//! it moves the stack pointer. Told as wrong is every other instruction whose name
//! begins as those that call, jump, loop, return, push or pop do, or that calls the
//! system; every other that names the stack pointer where it could be changed; one
//! with another word before it, or another behind it on its line; and data among the
//! code. All others are passed over: they are taken to leave the stack pointer as it
//! is and to go on to the next. So what would call, jump or change the stack pointer
//! under a name that isn't on these lists wouldn't be told.

use super::{aarch64, x86_64};

/// Where the code goes on after an instruction.
#[derive(Clone, Debug, PartialEq, Eq)]
pub enum Flow {
    On,
    To(String),
    OnOrTo(String),
    /// By one of the function's jump tables.
    Table,
    Nowhere,
}

#[derive(Clone, Debug)]
pub struct Effect {
    /// By how much the stack grows.
    pub grows: i64,
    /// How far below the stack pointer it writes or reads.
    pub below: usize,
    pub flow: Flow,
    pub callee: Option<String>,
    pub wrong: Option<&'static str>,
}

impl Effect {
    pub fn none() -> Effect {
        Effect {
            grows: 0,
            below: 0,
            flow: Flow::On,
            callee: None,
            wrong: None,
        }
    }

    pub fn wrong(told: &'static str) -> Effect {
        Effect {
            wrong: Some(told),
            ..Effect::none()
        }
    }

    pub fn growing(grows: i64) -> Effect {
        Effect {
            grows,
            ..Effect::none()
        }
    }

    pub fn calling(callee: &str, flow: Flow) -> Effect {
        Effect {
            callee: Some(callee.to_string()),
            flow,
            ..Effect::none()
        }
    }

    pub fn going(flow: Flow) -> Effect {
        Effect {
            flow,
            ..Effect::none()
        }
    }
}

pub struct Processor {
    /// What a call itself puts on the stack, which no frame counts.
    pub return_address: usize,
    pub comment: &'static str,
    /// Of an instruction, its operands, and the comment behind them.
    pub effect: fn(&str, &[&str], &str) -> Effect,
    /// Whether a jump through a register goes where a table leads, as the instructions tell that come before it and after the last label.
    pub reads_table: fn(&[&str], &str) -> bool,
}

pub fn named(name: &str) -> Option<Processor> {
    match name {
        "x86_64" => Some(Processor {
            return_address: 8,
            comment: "#",
            effect: x86_64::effect,
            reads_table: x86_64::reads_table,
        }),
        // the return address comes in a register, and is stored in the frame
        "aarch64" => Some(Processor {
            return_address: 0,
            comment: "//",
            effect: aarch64::effect,
            // not read: so far the compiler makes one jump for each table there; where it makes more, there is no bound
            reads_table: |_, _| false,
        }),
        _ => None,
    }
}

pub const INDIRECT: &str = "calls what isn't named";
pub const UNKNOWN: &str = "changes the stack pointer in a way that isn't known here";
pub const STRANGE: &str = "an instruction that isn't known here";

/// Whether a name begins like one of these.
pub fn begins(name: &str, beginnings: &[&str]) -> bool {
    beginnings.iter().any(|start| name.starts_with(start))
}

/// A label of the function itself.
fn is_label(operand: &str) -> bool {
    operand.starts_with(".L")
}

pub fn unquoted(operand: &str) -> &str {
    operand.trim_matches('"')
}

pub fn branch(target: &str, may_go_on: bool) -> Effect {
    match (is_label(target), may_go_on) {
        (true, true) => Effect::going(Flow::OnOrTo(target.to_string())),
        (true, false) => Effect::going(Flow::To(target.to_string())),
        // a call as the last thing that is done: it counts like any other
        (false, true) => Effect::calling(unquoted(target), Flow::On),
        (false, false) => Effect::calling(unquoted(target), Flow::Nowhere),
    }
}
