//! Calls every exported function with tables that nest as deep as 1,024 nodes allow,
//! and with others less deep, on a stack of 24 KB with memory right below it that
//! nobody may touch, and compares all that comes back with the reference. Tells the
//! most stack that each function was seen to use; that must be at most what
//! tests/stack.sh has computed.
//! Arguments: the file with the computed bytes (`FUNCTION BYTES` a line); how many
//! bytes the stack has, if not 24 KB; and what the names of the tables must have in
//! them, if not all are tried.
//!
//! The calls are made in a child process, which says before each of them what it
//! will do: one that leaves its stack is killed, and the others follow in a new child.

use reader_tests::bound::MOST;
use reader_tests::deep::on_stack::{OnStack, NAMES};
use reader_tests::deep::stack::Used;
use reader_tests::deep::tables::{self, Maker};
use reader_tests::deep::trial::try_one;
use std::collections::BTreeMap;
use std::process::{exit, Command, ExitStatus, Stdio};

const STACK: usize = 24 * 1_024;

/// The reference calls itself as deep as a table nests.
const ORDINARY: usize = 64 << 20;

/// They keep what is pending in a pile of 1,024 numbers on the stack: the type check,
/// which a display run makes too, of every table; a bench run only of an expression
/// that is deeper than its small pile. They clear the pile before they use it: where
/// fewer bytes were changed, no call has come so far, and their stack wasn't tried.
const WITH_PILE: [&str; 3] = ["styrmflo_type_check", "styrmflo_bench", "styrmflo_display"];
const PILE: usize = 1_024 * 8;

/// How many are told of those that fail in one way.
const TOLD: usize = 5;

fn main() {
    let given: Vec<String> = std::env::args().skip(1).collect();
    let number = |text: &String| text.parse::<usize>().expect("a number");
    match &given[..] {
        [first, stack, name, from] if first == "--child" => {
            child(number(stack), name, number(from))
        }
        [computed] => parent(computed, STACK, ""),
        [computed, stack] => parent(computed, number(stack), ""),
        [computed, stack, name] => parent(computed, number(stack), name),
        _ => {
            eprintln!("deep_tables COMPUTED [STACK-BYTES [NAME]]");
            exit(2);
        }
    }
}

/// Tries from this step on; a step is a table and a function.
fn child(stack: usize, name: &str, from: usize) {
    let name = name.to_string();
    let tries = move || {
        let on = OnStack::new(stack);
        let all = tables::with(&name);
        let first = from / NAMES.len();
        let mut deep = (first, all[first]());
        for step in from..all.len() * NAMES.len() {
            println!("step {step}");
            let (table, function) = (step / NAMES.len(), step % NAMES.len());
            if deep.0 != table {
                deep = (table, all[table]());
            }
            if let Err(told) = try_one(&on, &deep.1, function) {
                println!("differs {step} {told}");
            }
            if let Some(Used { down, changed }) = on.seen()[function] {
                println!("seen {} {down} {changed}", NAMES[function]);
            }
        }
    };
    let thread = std::thread::Builder::new().stack_size(ORDINARY);
    let ended = thread.spawn(tries).expect("a thread").join();
    exit(if ended.is_ok() { 0 } else { 1 });
}

/// What the children say.
#[derive(Default)]
struct Told {
    steps: usize,
    /// By function: the tables.
    killed: BTreeMap<usize, Vec<usize>>,
    differs: Vec<(usize, String)>,
    seen: BTreeMap<String, Used>,
}

fn parent(computed: &str, stack: usize, name: &str) {
    let bounds = bounds(computed);
    if let Some(name) = NAMES.iter().find(|name| !bounds.contains_key(**name)) {
        println!("{name}: nothing is computed");
        exit(1);
    }
    let all = tables::with(name);
    let steps = all.len() * NAMES.len();
    let told = told(stack, name, steps);
    let levels = all.iter().map(|make| make().levels).max();
    println!(
        "{} tables, {} trials on {stack} bytes of stack; up to {} nodes around another",
        all.len(),
        told.steps,
        levels.unwrap_or(0)
    );
    let seen = |name: &String| told.seen.get(name).copied();
    let functions = bounds.iter();
    let (right, wrong): (Vec<_>, Vec<_>) = functions
        .map(|(name, &bytes)| judged(name, seen(name), bytes))
        .partition(Result::is_ok);
    let wrong = wrong.into_iter().filter_map(Result::err);
    let wrong = [killed(&told, &all), differing(&told, &all), wrong.collect()].concat();
    let failed = told.steps != steps || !wrong.is_empty();
    let last = match failed {
        true => "deep tables: not as it must be",
        false => "deep tables: every answer as the reference's, no call beyond its stack",
    };
    let right = right.into_iter().filter_map(Result::ok);
    for line in right.chain(wrong).chain([last.to_string()]) {
        println!("{line}");
    }
    exit(i32::from(failed));
}

/// What was seen of a function, or what is wrong with it.
fn judged(name: &str, seen: Option<Used>, bytes: usize) -> Result<String, String> {
    let Some(Used { down, changed }) = seen else {
        return Err(format!("{name}: never called"));
    };
    let told = format!("{name}: {down} bytes seen, {bytes} computed");
    if down > bytes || bytes > MOST {
        Err(format!("{told}, {MOST} allowed"))
    } else if WITH_PILE.contains(&name) && changed < PILE {
        Err(format!(
            "{name}: its pile wasn't used, {changed} bytes changed"
        ))
    } else {
        Ok(told)
    }
}

fn bounds(path: &str) -> BTreeMap<String, usize> {
    let text = std::fs::read_to_string(path).unwrap_or_else(|error| {
        println!("{path}: {error}");
        exit(1);
    });
    let words = text.lines().filter_map(|line| line.split_once(' '));
    words
        .map(|(name, bytes)| (name.to_string(), bytes.parse().expect("a number")))
        .collect()
}

/// Starts children until one comes to the end.
fn told(stack: usize, name: &str, steps: usize) -> Told {
    let mut told = Told::default();
    let mut from = 0;
    while from < steps {
        let program = std::env::current_exe().expect("this program's path");
        let child = Command::new(program)
            .args(["--child", &stack.to_string(), name, &from.to_string()])
            .stderr(Stdio::inherit())
            .output()
            .expect("this program again");
        let last = heard(&String::from_utf8_lossy(&child.stdout), &mut told);
        if child.status.success() {
            break;
        }
        let Some(step) = last else {
            println!("a child that does nothing: {}", child.status);
            exit(1);
        };
        if !is_killed(child.status) {
            println!("a child that ended at step {step}: {}", child.status);
            exit(1);
        }
        let (table, function) = (step / NAMES.len(), step % NAMES.len());
        told.killed.entry(function).or_default().push(table);
        from = step + 1;
    }
    told
}

/// By a signal, as one that touches memory that it may not.
fn is_killed(status: ExitStatus) -> bool {
    status.code().is_none()
}

/// The last step that was begun.
fn heard(output: &str, told: &mut Told) -> Option<usize> {
    let mut last = None;
    for line in output.lines() {
        let words: Vec<&str> = line.split(' ').collect();
        let number = |word: &str| word.parse::<usize>().expect("a number");
        match words[..] {
            ["step", step] => {
                told.steps += 1;
                last = Some(number(step));
            }
            ["differs", step, ref what @ ..] => {
                told.differs.push((number(step), what.join(" ")));
            }
            ["seen", name, down, changed] => {
                let [down, changed] = [down, changed].map(number);
                let seen = told.seen.entry(name.to_string()).or_default();
                *seen = seen.or(Used { down, changed });
            }
            _ => println!("{line}"),
        }
    }
    last
}

fn killed(told: &Told, all: &[Maker]) -> Vec<String> {
    let functions = told.killed.iter().map(|(&function, tables)| {
        let names = tables.iter().take(TOLD).map(|&table| all[table]().name);
        format!(
            "{}: killed beyond its stack at {} of {} tables:\n    {}",
            NAMES[function],
            tables.len(),
            all.len(),
            Vec::from_iter(names).join("\n    ")
        )
    });
    functions.collect()
}

fn differing(told: &Told, all: &[Maker]) -> Vec<String> {
    let some = told.differs.iter().take(TOLD).map(|(step, what)| {
        let (table, function) = (step / NAMES.len(), step % NAMES.len());
        format!("{}, {}: {what}", all[table]().name, NAMES[function])
    });
    some.collect()
}
