//! The functions of a module as the compiler writes them.

use super::processors::{begins, Effect, Processor, STRANGE};
use super::ways::{followed, Function};
use std::collections::{BTreeMap, BTreeSet};

pub struct Code {
    pub name: String,
    /// As in its labels: `.LBB3_1` is one of function 3.
    number: String,
    pub lines: Vec<(String, Effect)>,
    /// The place of the first instruction behind it.
    pub labels: BTreeMap<String, usize>,
}

/// The jump tables of a function.
#[derive(Default)]
pub struct Tables {
    pub count: usize,
    /// Where they lead.
    pub labels: BTreeSet<String>,
}

/// They stand among the code and aren't part of it.
const REMARKS: [&str; 3] = [".p2align", ".cfi_", ".loc"];

pub fn functions(processor: &Processor, text: &str, wrong: &mut Vec<String>) -> Vec<Function> {
    let (tables, none) = (jump_tables(text), Tables::default());
    let codes = codes(processor, text);
    codes
        .iter()
        .map(|code| {
            let tables = tables.get(&code.number).unwrap_or(&none);
            followed(processor, code, tables, wrong)
        })
        .collect()
}

/// By the function's number.
fn jump_tables(text: &str) -> BTreeMap<String, Tables> {
    let mut all: BTreeMap<String, Tables> = BTreeMap::new();
    let mut inside = None;
    for line in text.lines() {
        if let Some((number, _)) = table_label(line) {
            inside = Some(number);
            all.entry(number.to_string()).or_default().count += 1;
        } else if !line.starts_with('\t') || line.starts_with("\t.section") {
            inside = None;
        } else if let (Some(number), Some(at)) = (inside, line.find(".LBB")) {
            let tables = all.entry(number.to_string()).or_default();
            tables.labels.insert(label_at(&line[at..]));
        }
    }
    all
}

/// `.LJTI3_1:` is table 1 of function 3.
fn table_label(line: &str) -> Option<(&str, &str)> {
    line.strip_prefix(".LJTI")?.split_once('_')
}

fn label_at(text: &str) -> String {
    text.chars()
        .take_while(|c| c.is_ascii_alphanumeric() || matches!(c, '.' | '_'))
        .collect()
}

fn codes(processor: &Processor, text: &str) -> Vec<Code> {
    let mut functions = BTreeSet::new();
    let mut codes = Vec::new();
    let mut open: Option<Code> = None;
    for line in text.lines() {
        if let Some(named) = line.strip_prefix("\t.type\t") {
            if let Some((name, _)) = named.split_once(",@function") {
                functions.insert(name.to_string());
            }
            continue;
        }
        let (code, comment) = match line.find(processor.comment) {
            Some(at) => (line[..at].trim_end(), &line[at..]),
            None => (line.trim_end(), ""),
        };
        if let Some(label) = code.strip_suffix(':') {
            if functions.contains(label) {
                open = Some(Code {
                    name: label.trim_matches('"').to_string(),
                    number: String::new(),
                    lines: Vec::new(),
                    labels: BTreeMap::new(),
                });
            } else if let Some(number) = label.strip_prefix(".Lfunc_end") {
                if let Some(mut code) = open.take() {
                    code.number = number.to_string();
                    codes.push(code);
                }
            } else if let Some(code) = &mut open {
                code.labels.insert(label.to_string(), code.lines.len());
            }
        } else if let (Some(inside), Some(text)) = (&mut open, code.strip_prefix('\t')) {
            if !begins(text, &REMARKS) {
                let effect = effect(processor, text, comment);
                inside.lines.push((text.replace('\t', " "), effect));
            }
        }
    }
    codes
}

fn effect(processor: &Processor, text: &str, comment: &str) -> Effect {
    // data, or more than one instruction
    if text.starts_with('.') || text.contains(';') {
        return Effect::wrong(STRANGE);
    }
    let (instruction, rest) = text.split_once(char::is_whitespace).unwrap_or((text, ""));
    (processor.effect)(instruction, &operands(rest), comment)
}

/// Between the commas that stand in no bracket, nor in a quoted name: that of a generic function has its types in it.
fn operands(rest: &str) -> Vec<&str> {
    let mut all = Vec::new();
    let (mut deep, mut from, mut quoted) = (0, 0, false);
    for (at, c) in rest.char_indices() {
        match c {
            '"' => quoted = !quoted,
            _ if quoted => {}
            '(' | '[' | '{' => deep += 1,
            ')' | ']' | '}' => deep -= 1,
            ',' if deep == 0 => {
                all.push(rest[from..at].trim());
                from = at + 1;
            }
            _ => {}
        }
    }
    if !rest.trim().is_empty() {
        all.push(rest[from..].trim());
    }
    all
}
