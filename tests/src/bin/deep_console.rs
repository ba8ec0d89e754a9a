//! Gives the console program those tables of deep_tables that have nothing wrong or
//! faulty at their bottom, and compares what it prints with the reference. Most nest
//! as deep as 1,024 nodes allow. Some have as many levels as a run can go down, and
//! one more; some are random trees. Nests of greaters and some of the trees break the
//! type rules: those run in bench mode, which doesn't ask.
//! READER_CONSOLE is the command that starts it (tests/console_command.sh prints it).
//!
//! The program keeps its input, the table and the work area on its stack, far more
//! than a table's nesting could add: so on x86-64, where it runs directly, its stack
//! is limited to what it takes for the smallest table, and LITTLE. Elsewhere it runs
//! under an emulator, whose own stack the limit would be: there only the answers are
//! compared.

use reader_tests::deep::tables::{self, message, Deep};
use reader_tests::numbers::DONE;
use reader_tests::program::Program;
use reader_tests::reference::listing::{hex_of, listing_of};
use reader_tests::reference::table::Table;
use reader_tests::subject::{Console, Reference};
use std::fs;
use std::path::Path;

/// In kilobytes. The system lets a program's stack begin up to 8 KB lower than it
/// may, at random.
const LITTLE: usize = 16;
const MOST: usize = 8_192;

/// What the program keeps on its stack takes far more: where less is enough, the stack
/// isn't limited, or it isn't the program.
const LEAST: usize = 100;

const BUDGET: u32 = 5_000;

/// Case A of document 01.
const SMALLEST: &str = "mode=display\nbudget=2\nmessage=4731\nrules=1\nnodes=3\nliterals=\n\
    rule=1 0 0 0 0 0 1 2 0 0 0 3 0 0 0\nnode=2 71 0 0 0 0 0 0 0 0\nnode=8 0 0 0 0 0 0 0 0 0\n\
    node=19 0 0 0 0 0 0 0 0 0\n";

/// The command with so many kilobytes of stack.
fn limited(command: &str, kilobytes: usize) -> String {
    format!("sh\n-c\nulimit -s {kilobytes} && exec \"$@\"\nsh\n{command}")
}

/// The least limit with which the program answers the smallest table, each tried
/// a few times.
fn least(command: &str, room: &Path) -> usize {
    let answers = |kilobytes: usize| {
        let program = Program::new(&limited(command, kilobytes), room);
        (0..3).all(|_| program.respond(SMALLEST.as_bytes()).is_ok())
    };
    let (mut too_little, mut enough) = (0, MOST);
    while enough - too_little > 1 {
        let middle = (too_little + enough) / 2;
        match answers(middle) {
            true => enough = middle,
            false => too_little = middle,
        }
    }
    enough
}

fn input(deep: &Deep) -> String {
    let mode = match deep.verdict {
        DONE => "display",
        _ => "bench",
    };
    let table = Table {
        words: &deep.words,
        literals: &deep.literals,
    };
    format!(
        "mode={mode}\nbudget={BUDGET}\nmessage={}\n{}",
        hex_of(&message()),
        listing_of(&table)
    )
}

/// The command as it is started here, and with how much stack.
fn started(command: &str, room: &Path) -> Result<(String, String), String> {
    if !cfg!(target_arch = "x86_64") {
        return Ok((command.to_string(), "its stack as it comes".to_string()));
    }
    let least = least(command, room);
    if least < LEAST {
        return Err(format!(
            "the smallest table on {least} KB of stack: less than the program must take"
        ));
    }
    let limit = least + LITTLE;
    let how = format!("on {limit} KB of stack, {LITTLE} more than the smallest takes");
    Ok((limited(command, limit), how))
}

/// How many inputs were answered as they must be.
fn compare(command: &str, room: &Path) -> Result<String, String> {
    let (command, how) = started(command, room)?;
    let program = Program::new(&command, room);
    let reference = Reference { work_words: 0 };
    let mut count = 0;
    let all = tables::all();
    for deep in all.iter().map(|make| make()).filter(|deep| deep.plain) {
        let input = input(&deep).into_bytes();
        let told = |what: String| format!("{}, {how}: {what}", deep.name);
        let given = program.respond(&input).map_err(told)?;
        if given != reference.respond(&input)? {
            return Err(told("not what the reference prints".to_string()));
        }
        count += 1;
    }
    Ok(format!(
        "{count} deep tables through the console program, {how}: as the reference"
    ))
}

fn main() {
    let command = std::env::var("READER_CONSOLE").expect("READER_CONSOLE");
    let room = Path::new(env!("CARGO_MANIFEST_DIR")).join("../target/deep_console");
    fs::create_dir_all(&room).expect("a folder for input and output");
    // the reference calls itself as deep as a table nests
    let thread = std::thread::Builder::new().stack_size(64 << 20);
    let compared = thread.spawn(move || compare(&command, &room));
    match compared.expect("a thread").join().expect("an answer") {
        Ok(told) => println!("{told}"),
        Err(told) => {
            println!("{told}");
            std::process::exit(1);
        }
    }
}
