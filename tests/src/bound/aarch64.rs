//! The instructions of aarch64.

use super::processors::{begins, branch, unquoted, Effect, Flow, INDIRECT, STRANGE, UNKNOWN};

/// The beginnings of those that call and return, and jump out of the function.
const CALLS: [&str; 8] = ["bl", "br", "ret", "eret", "drps", "svc", "hvc", "smc"];

pub fn effect(instruction: &str, operands: &[&str], _comment: &str) -> Effect {
    flow(instruction, operands)
        .or_else(|| stack_pointer(instruction, operands))
        .or_else(|| address(operands))
        .unwrap_or_else(Effect::none)
}

/// Of one that goes elsewhere.
fn flow(instruction: &str, operands: &[&str]) -> Option<Effect> {
    let last = operands.last().copied().unwrap_or("");
    Some(match instruction {
        "bl" => Effect::calling(unquoted(last), Flow::On),
        "br" => Effect::going(Flow::Table),
        "b" => branch(last, false),
        "cbz" | "cbnz" | "tbz" | "tbnz" => branch(last, true),
        "ret" if operands.is_empty() => Effect::going(Flow::Nowhere),
        "brk" | "udf" => Effect::going(Flow::Nowhere),
        _ if instruction.starts_with("b.") => branch(last, true),
        _ if begins(instruction, &CALLS) => Effect::wrong(INDIRECT),
        _ if begins(instruction, &["bc.", "cb"]) => Effect::wrong(STRANGE),
        _ => return None,
    })
}

/// Of one that has the stack pointer as its first operand, where its result goes.
fn stack_pointer(instruction: &str, operands: &[&str]) -> Option<Effect> {
    let (first, others) = operands.split_first()?;
    Some(match (*first, instruction, others) {
        ("sp", "cmp", _) => Effect::none(),
        ("sp", "sub", ["sp", bytes @ ..]) => growing(constant(bytes)),
        ("sp", "add", ["sp", bytes @ ..]) => growing(constant(bytes).map(|bytes| -bytes)),
        ("sp" | "wsp", ..) => Effect::wrong(UNKNOWN),
        _ => return None,
    })
}

/// `#16`, or `#4, lsl #12`.
fn constant(operands: &[&str]) -> Option<i64> {
    match operands {
        [bytes] => number(bytes),
        [bytes, shift] => Some(number(bytes)? << number(shift.strip_prefix("lsl ")?)?),
        _ => None,
    }
}

fn number(operand: &str) -> Option<i64> {
    operand.strip_prefix('#')?.parse().ok()
}

fn growing(bytes: Option<i64>) -> Effect {
    bytes.map_or(Effect::wrong(UNKNOWN), Effect::growing)
}

/// Of an address from the stack pointer on: `[sp, #16]`, or with the stack pointer
/// changed before, `[sp, #-16]!`, or after, `[sp], #16`.
fn address(operands: &[&str]) -> Option<Effect> {
    let at = operands.iter().position(|operand| is_from_it(operand))?;
    let offset = operands[at].trim_start_matches("[sp");
    Some(match (offset, operands.get(at + 1)) {
        ("]", None) => Effect::none(),
        ("]", Some(after)) => growing(number(after).map(|bytes| -bytes)),
        _ => offset_address(offset.trim_start_matches(',').trim()),
    })
}

fn is_from_it(operand: &str) -> bool {
    match operand.strip_prefix("[sp") {
        Some(rest) => matches!(rest.as_bytes().first(), None | Some(b']' | b',' | b' ')),
        None => false,
    }
}

/// Of `#16]`, `#-16]!` or `x8, lsl #3]`.
fn offset_address(offset: &str) -> Effect {
    let bytes = number(offset.trim_end_matches('!').trim_end_matches(']'));
    match (bytes, offset.ends_with('!')) {
        (bytes, true) => growing(bytes.map(|bytes| -bytes)),
        (Some(bytes), false) => Effect {
            below: bytes.min(0).unsigned_abs() as usize,
            ..Effect::none()
        },
        // by a register: an index into what lies above
        (None, false) => Effect::none(),
    }
}
