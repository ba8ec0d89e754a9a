//! How much stack the exported functions of a compiled module take, at most:
//! read from what the compiler says of each frame and from the code it made.

mod aarch64;
pub mod assembly;
pub mod graph;
pub mod object;
pub mod processors;
pub mod ways;
mod x86_64;

use graph::graph;
use std::collections::{BTreeMap, BTreeSet};
use ways::Function;

/// The most that an exported function may take.
pub const MOST: usize = 16_384;

/// All that is looked at.
pub struct Module<'a> {
    pub processor: &'a str,
    pub assembly: &'a str,
    /// What the compiler says of each frame: `FILE:FUNCTION`, bytes, and whether
    /// that is all (`static`), with tabs between.
    pub usage: &'a str,
    pub object: &'a [u8],
    /// The functions that are to be exported.
    pub declared: BTreeSet<String>,
    /// What may be called outside, and how much stack it may take there.
    pub outside: BTreeMap<String, usize>,
    /// `DEPTH FUNCTION..` a line.
    pub cycles: &'a str,
}

pub struct Bound {
    pub function: String,
    pub bytes: usize,
    /// The functions of the deepest chain with their bytes.
    pub chain: Vec<(String, usize)>,
}

/// A line an exported function, and all that is wrong.
pub fn bounds(module: &Module) -> (Vec<Bound>, Vec<String>) {
    let Some(processor) = processors::named(module.processor) else {
        let told = format!("{}: its code can't be read here", module.processor);
        return (Vec::new(), vec![told]);
    };
    let object = match object::read(module.object) {
        Ok(object) => object,
        Err(told) => return (Vec::new(), vec![told]),
    };
    let mut wrong = Vec::new();
    let functions = assembly::functions(&processor, module.assembly, &mut wrong);
    wrong.extend(not_in_both(&functions, &object));
    let said = said_by_the_compiler(module.usage, &mut wrong);
    let other_frames = functions.iter();
    wrong.extend(other_frames.filter_map(|function| not_as_said(function, &said)));
    wrong.extend(not_as_declared(&object, module));
    let graph = graph(&functions, processor.return_address, module, &mut wrong);
    let exported = object.exported.iter();
    let all: Vec<Bound> = exported.map(|name| graph.deepest(name)).collect();
    let over = all.iter().filter(|bound| bound.bytes > MOST);
    wrong.extend(over.map(
        |Bound {
             function, bytes, ..
         }| { format!("{function}: {bytes} bytes, over {MOST}") },
    ));
    (all, wrong)
}

/// What the object writes, lacks and exports, against what it may.
fn not_as_declared(object: &object::Object, module: &Module) -> Vec<String> {
    let told = |names: Vec<&String>, what: &str| -> Vec<String> {
        let names = names.into_iter();
        names.map(|name| format!("{name}: {what}")).collect()
    };
    let missing = object.missing.iter();
    let unlisted = missing.filter(|name| !module.outside.contains_key(*name));
    let undeclared = object.exported.difference(&module.declared);
    let unexported = module.declared.difference(&object.exported);
    [
        told(
            object.written.iter().collect(),
            "memory of its own that can be written",
        ),
        told(unlisted.collect(), "called outside, and not on the list"),
        told(undeclared.collect(), "exported, and not in the header"),
        told(unexported.collect(), "in the header, and not exported"),
    ]
    .concat()
}

/// The functions of the assembly are those of the object.
fn not_in_both(functions: &[Function], object: &object::Object) -> Vec<String> {
    let read: BTreeSet<String> = functions.iter().map(|f| f.name.clone()).collect();
    let differ = read.symmetric_difference(&object.functions);
    differ
        .map(|name| format!("{name}: in the assembly or in the object, not in both"))
        .collect()
}

/// The frames, by function. The compiler gives every function one of one size.
fn said_by_the_compiler(usage: &str, wrong: &mut Vec<String>) -> BTreeMap<String, usize> {
    let mut said = BTreeMap::new();
    for line in usage.lines() {
        match frame(line) {
            Some((name, bytes)) => said.insert(name.to_string(), bytes),
            None => {
                wrong.push(format!("{line}: no frame of one size"));
                continue;
            }
        };
    }
    said
}

fn frame(line: &str) -> Option<(&str, usize)> {
    let words: Vec<&str> = line.split('\t').collect();
    match words[..] {
        [name, bytes, "static", ..] => Some((function_of(name)?, bytes.parse().ok()?)),
        _ => None,
    }
}

/// The compiler doesn't count what a function that calls nothing keeps below the
/// stack pointer, nor arguments that are pushed for a call: the code may take more
/// than the compiler says, and the larger counts. It never takes less.
fn not_as_said(function: &Function, said: &BTreeMap<String, usize>) -> Option<String> {
    let (name, moved) = (&function.name, function.moved);
    match said.get(name) {
        None => Some(format!("{name}: the compiler says nothing of its frame")),
        Some(&bytes) if bytes > moved => Some(format!(
            "{name}: a frame of {bytes} bytes, but its code takes {moved}"
        )),
        Some(_) => None,
    }
}

/// The file's name ends with a dot and two letters; a function's may have colons.
fn function_of(word: &str) -> Option<&str> {
    let end = word.find(".bc:").or_else(|| word.find(".ll:"))?;
    Some(&word[end + 4..])
}
