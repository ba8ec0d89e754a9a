//! Who calls whom, the cycles in it, and the deepest chain from a function.

use super::ways::Function;
use super::{Bound, Module};
use std::collections::{BTreeMap, BTreeSet};

/// Functions that call each other in a circle, or one that doesn't.
struct Group {
    name: String,
    bytes: usize,
    callees: BTreeSet<String>,
}

#[derive(Default)]
pub struct Graph {
    group_of: BTreeMap<String, usize>,
    groups: Vec<Group>,
}

type Callees<'a> = BTreeMap<&'a str, BTreeSet<&'a str>>;

/// How often the functions of a cycle may stand on the stack, and the functions.
type Cycle<'a> = (usize, BTreeSet<&'a str>);

/// The deepest chain from a group on: its bytes, and which group comes next.
type Chain = (usize, Option<usize>);

/// A call itself takes `return_address` bytes.
pub fn graph(
    functions: &[Function],
    return_address: usize,
    module: &Module,
    wrong: &mut Vec<String>,
) -> Graph {
    let outside = module.outside.iter();
    let own = functions.iter();
    let bytes: BTreeMap<&str, usize> = outside
        .map(|(name, &allowed)| (name.as_str(), allowed))
        .chain(own.map(|function| (function.name.as_str(), function.bytes)))
        .map(|(name, bytes)| (name, bytes + return_address))
        .collect();
    let callees = callees(functions, &bytes, wrong);
    let mut named = named_cycles(module.cycles, wrong);
    let mut graph = Graph::default();
    for members in groups(&callees) {
        graph.add(&members, &bytes, &callees, &mut named, wrong);
    }
    let others = named
        .into_iter()
        .map(|(_, names)| Vec::from_iter(names).join(", "));
    wrong.extend(others.map(|names| format!("{names}: named as a cycle, and is none")));
    graph
}

/// Of all whose bytes are known; what is outside calls nothing here.
fn callees<'a>(
    functions: &'a [Function],
    bytes: &BTreeMap<&'a str, usize>,
    wrong: &mut Vec<String>,
) -> Callees<'a> {
    let mut all: Callees = bytes.keys().map(|name| (*name, BTreeSet::new())).collect();
    for function in functions {
        let called = function.calls.iter().map(String::as_str);
        let (known, unknown): (BTreeSet<&str>, BTreeSet<&str>) =
            called.partition(|callee| bytes.contains_key(callee));
        let told = |callee| {
            format!(
                "{}: calls {callee}, of which nothing is known",
                function.name
            )
        };
        wrong.extend(unknown.into_iter().map(told));
        all.insert(&function.name, known);
    }
    all
}

/// How often it counts, if it is one of the named cycles, which is then taken.
fn taken(named: &mut Vec<Cycle>, members: &BTreeSet<&str>) -> Option<usize> {
    let at = named.iter().position(|(_, names)| names == members)?;
    Some(named.remove(at).0)
}

impl Graph {
    /// A group whose callees are there.
    fn add(
        &mut self,
        members: &[&str],
        bytes: &BTreeMap<&str, usize>,
        callees: &Callees,
        named: &mut Vec<Cycle>,
        wrong: &mut Vec<String>,
    ) {
        let set: BTreeSet<&str> = members.iter().copied().collect();
        let is_cycle = members.len() > 1 || callees[members[0]].contains(members[0]);
        let times = if is_cycle { taken(named, &set) } else { None };
        if is_cycle && times.is_none() {
            wrong.push(format!("a cycle: {}", members.join(", ")));
        }
        let name = members.join(" and ");
        let sum: usize = members.iter().map(|name| bytes[name]).sum();
        let called = members.iter().flat_map(|name| &callees[name]);
        let place = self.groups.len();
        self.group_of
            .extend(members.iter().map(|name| (name.to_string(), place)));
        self.groups.push(Group {
            name: times.map_or(name.clone(), |times| format!("{times} times {name}")),
            bytes: times.unwrap_or(1) * sum,
            callees: called
                .filter(|name| !set.contains(*name))
                .map(|name| name.to_string())
                .collect(),
        });
    }

    /// From each group on.
    fn chains(&self) -> Vec<Chain> {
        let mut chains: Vec<Chain> = Vec::new();
        // groups come after those that they call
        for group in &self.groups {
            let below = group.callees.iter().map(|name| self.group_of[name]);
            let deepest = below.max_by_key(|&place| chains[place].0);
            let bytes = deepest.map_or(0, |place| chains[place].0);
            chains.push((group.bytes + bytes, deepest));
        }
        chains
    }

    /// Of a function that is there.
    pub fn deepest(&self, function: &str) -> Bound {
        let chains = self.chains();
        let first = self.group_of.get(function).copied();
        let places = std::iter::successors(first, |&place| chains[place].1);
        let groups = places.map(|place| &self.groups[place]);
        Bound {
            function: function.to_string(),
            bytes: first.map_or(0, |place| chains[place].0),
            chain: groups
                .map(|group| (group.name.clone(), group.bytes))
                .collect(),
        }
    }
}

/// `DEPTH FUNCTION..` a line; what follows # is a remark.
fn named_cycles<'a>(text: &'a str, wrong: &mut Vec<String>) -> Vec<Cycle<'a>> {
    let mut all = Vec::new();
    for line in text.lines() {
        let mut words = line.split('#').next().unwrap_or("").split_whitespace();
        let Some(first) = words.next() else {
            continue;
        };
        let names: BTreeSet<&str> = words.collect();
        match first.parse() {
            Ok(depth) if depth > 0 && !names.is_empty() => all.push((depth, names)),
            _ => wrong.push(format!("{line}: no depth and functions of a cycle")),
        }
    }
    all
}

/// The functions that call each other in a circle together, each other alone,
/// those that are called before those that call them (Tarjan's algorithm).
fn groups<'a>(callees: &Callees<'a>) -> Vec<Vec<&'a str>> {
    let mut search = Search {
        callees,
        found: BTreeMap::new(),
        lowest: BTreeMap::new(),
        open: Vec::new(),
        groups: Vec::new(),
    };
    for name in callees.keys() {
        if !search.found.contains_key(name) {
            search.visit(name);
        }
    }
    search.groups
}

struct Search<'a, 'b> {
    callees: &'b Callees<'a>,
    found: BTreeMap<&'a str, usize>,
    lowest: BTreeMap<&'a str, usize>,
    open: Vec<&'a str>,
    groups: Vec<Vec<&'a str>>,
}

impl<'a> Search<'a, '_> {
    fn visit(&mut self, name: &'a str) {
        let number = self.found.len();
        self.found.insert(name, number);
        self.lowest.insert(name, number);
        self.open.push(name);
        for callee in &self.callees[name] {
            if !self.found.contains_key(callee) {
                self.visit(callee);
                let reached = self.lowest[callee].min(self.lowest[name]);
                self.lowest.insert(name, reached);
            } else if self.open.contains(callee) {
                let reached = self.found[callee].min(self.lowest[name]);
                self.lowest.insert(name, reached);
            }
        }
        if self.lowest[name] == number {
            let at = self.open.iter().position(|open| *open == name);
            let mut group = self.open.split_off(at.expect("an open function"));
            group.sort_unstable();
            self.groups.push(group);
        }
    }
}
