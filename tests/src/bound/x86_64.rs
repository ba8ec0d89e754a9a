//! The instructions of x86-64.

use super::processors::{begins, branch, unquoted, Effect, Flow, INDIRECT, STRANGE, UNKNOWN};

/// Whole or in part.
const STACK_POINTER: [&str; 4] = ["%rsp", "%esp", "%sp", "%spl"];

/// They may name the stack pointer first, as what they only read.
const READ_THE_FIRST: [&str; 5] = ["movq", "addq", "subq", "cmpq", "testq"];

/// The beginnings of those that call and return, and jump out of the function.
const CALLS: [&str; 9] = [
    "call", "jmp", "ret", "lcall", "ljmp", "lret", "iret", "sys", "int",
];

pub fn effect(instruction: &str, operands: &[&str], comment: &str) -> Effect {
    let known = flow(instruction, operands, comment)
        .or_else(|| pushed(instruction, operands))
        .or_else(|| stack_pointer(instruction, operands));
    Effect {
        below: below(operands),
        ..known.unwrap_or_else(Effect::none)
    }
}

/// Of one that goes elsewhere.
fn flow(instruction: &str, operands: &[&str], comment: &str) -> Option<Effect> {
    let last = operands.last().copied().unwrap_or("");
    let target = last.trim_end_matches("@PLT");
    let is_tail_call = comment.contains("TAILCALL");
    Some(match instruction {
        _ if has_word_before(operands) => Effect::wrong(STRANGE),
        "callq" | "call" if !last.starts_with('*') => Effect::calling(unquoted(target), Flow::On),
        "jmpq" | "jmp" if !last.starts_with('*') => branch(target, false),
        "jmpq" | "jmp" if !is_tail_call => Effect::going(Flow::Table),
        "retq" | "ret" | "ud2" if operands.is_empty() => Effect::going(Flow::Nowhere),
        _ if begins(instruction, &CALLS) => Effect::wrong(INDIRECT),
        _ if begins(instruction, &["loop", "xbegin"]) => Effect::wrong(STRANGE),
        _ if instruction.starts_with('j') => branch(target, true),
        _ => return None,
    })
}

/// `notrack jmpq *%rax`: then what is taken for the instruction is a word before it.
fn has_word_before(operands: &[&str]) -> bool {
    let first = operands.first().copied().unwrap_or("");
    !first.starts_with('"') && first.contains(char::is_whitespace)
}

/// Of one that pushes or pops.
fn pushed(instruction: &str, operands: &[&str]) -> Option<Effect> {
    match (instruction, operands) {
        ("pushq", [_]) => Some(Effect::growing(8)),
        ("popq", [to]) if !STACK_POINTER.contains(to) => Some(Effect::growing(-8)),
        _ if instruction.starts_with("popcnt") => None,
        _ if begins(instruction, &["push", "pop", "enter", "leave"]) => {
            Some(Effect::wrong(UNKNOWN))
        }
        _ => None,
    }
}

/// Of one that names the stack pointer other than in an address.
fn stack_pointer(instruction: &str, operands: &[&str]) -> Option<Effect> {
    let is_named = |operand: &&str| STACK_POINTER.contains(operand);
    if !operands.iter().any(is_named) {
        return None;
    }
    Some(match (instruction, operands) {
        // a frame pointer: what it stands for isn't followed
        ("movq", ["%rsp", "%rbp"]) => Effect::wrong(UNKNOWN),
        ("cmpq" | "testq", _) => Effect::none(),
        ("subq" | "addq", [bytes, "%rsp"]) => match (constant(bytes), instruction) {
            (Some(bytes), "subq") => Effect::growing(bytes),
            (Some(bytes), _) => Effect::growing(-bytes),
            (None, _) => Effect::wrong(UNKNOWN),
        },
        (_, ["%rsp", other]) if READ_THE_FIRST.contains(&instruction) && !is_named(other) => {
            Effect::none()
        }
        _ => Effect::wrong(UNKNOWN),
    })
}

fn constant(operand: &str) -> Option<i64> {
    operand.strip_prefix('$')?.parse().ok()
}

/// How far below the stack pointer its addresses lie.
fn below(operands: &[&str]) -> usize {
    let offsets = operands
        .iter()
        .filter_map(|operand| operand.split_once("(%rsp"));
    offsets
        .filter_map(|(number, _)| number.parse::<i64>().ok())
        .map(|number| number.min(0).unsigned_abs() as usize)
        .max()
        .unwrap_or(0)
}

/// `movslq (%r12,%rax,4), %rcx` and `addq %r12, %rcx`, a distance from a table and the table's place, then nothing that names this register until `jmpq *%rcx`.
pub fn reads_table(before: &[&str], jump: &str) -> bool {
    let Some(target) = jump.strip_prefix("jmpq *") else {
        return false;
    };
    let names = names_of(target);
    let named = |line: &&str| names.iter().any(|name| line.contains(name.as_str()));
    let Some(at) = before.iter().rposition(named) else {
        return false;
    };
    let [.., load, add] = before[..=at] else {
        return false;
    };
    let table = add
        .strip_prefix("addq ")
        .and_then(|rest| rest.strip_suffix(&format!(", {target}")));
    table.is_some_and(|table| {
        load.starts_with(&format!("movslq ({table},%"))
            && load.ends_with(&format!(",4), {target}"))
            && table != target
    })
}

/// What a register is called, whole or in part: `%rcx` is `%ecx`, `%cx`, `%cl` and `%ch` too, and `%r12` the beginning of all of its names.
fn names_of(register: &str) -> Vec<String> {
    let Some(letters) = register.strip_prefix("%r") else {
        return vec!["%".to_string()];
    };
    if letters.starts_with(|c: char| c.is_ascii_digit()) {
        return vec![register.to_string()];
    }
    let short = letters.trim_end_matches('x');
    ["%r", "%e", "%"]
        .map(|start| format!("{start}{letters}"))
        .into_iter()
        .chain(["l", "h"].map(|end| format!("%{short}{end}")))
        .collect()
}
