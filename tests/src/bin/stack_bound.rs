//! Tells how much stack each exported function of a compiled module takes at
//! most, a line a function: name, bytes, the deepest chain. Exit 1 where
//! something stands against it, all of which is told.
//! Arguments: the processor; the folder of PROCESSOR.s, PROCESSOR.su and
//! PROCESSOR.o; the header that declares the functions; the named cycles; and
//! what may be called outside, each as NAME=BYTES. tests/stack.sh calls it.

use reader_tests::bound::{bounds, Bound, Module};
use std::collections::{BTreeMap, BTreeSet};

fn file(path: &str) -> Vec<u8> {
    std::fs::read(path).unwrap_or_else(|error| {
        println!("{path}: {error}");
        std::process::exit(1);
    })
}

fn text(path: &str) -> String {
    String::from_utf8_lossy(&file(path)).into_owned()
}

/// The names before an opening bracket that start as all of them do.
fn declared(header: &str) -> BTreeSet<String> {
    let parts = header.split(|c: char| !c.is_ascii_alphanumeric() && c != '_' && c != '(');
    parts
        .filter_map(|part| part.split_once('('))
        .map(|(name, _)| name.to_string())
        .filter(|name| name.starts_with("styrmflo_"))
        .collect()
}

fn main() {
    let given: Vec<String> = std::env::args().skip(1).collect();
    let [processor, folder, header, cycles, outside @ ..] = &given[..] else {
        eprintln!("stack_bound PROCESSOR FOLDER HEADER CYCLES [NAME=BYTES..]");
        std::process::exit(2);
    };
    let outside: BTreeMap<String, usize> = outside
        .iter()
        .filter_map(|word| word.split_once('='))
        .map(|(name, bytes)| (name.to_string(), bytes.parse().expect("a number")))
        .collect();
    let [assembly, usage] = ["s", "su"].map(|end| text(&format!("{folder}/{processor}.{end}")));
    let (all, wrong) = bounds(&Module {
        processor,
        assembly: &assembly,
        usage: &usage,
        object: &file(&format!("{folder}/{processor}.o")),
        declared: declared(&text(header)),
        outside,
        cycles: &text(cycles),
    });
    let lines = all.iter().map(line);
    let wrong = wrong.iter().map(|told| format!("{processor}, {told}"));
    let failed = all.is_empty() || wrong.len() > 0;
    let last = failed.then(|| format!("{processor}: no bound"));
    for line in lines.chain(wrong).chain(last) {
        println!("{line}");
    }
    if failed {
        std::process::exit(1);
    }
}

fn line(bound: &Bound) -> String {
    let chain = bound.chain.iter();
    let chain: Vec<String> = chain
        .map(|(name, bytes)| format!("{name} {bytes}"))
        .collect();
    format!("{} {} {}", bound.function, bound.bytes, chain.join(" + "))
}
