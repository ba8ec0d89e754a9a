//! Compares the console program with the reference. READER_CONSOLE is the
//! command that starts it (tests/console_command.sh prints it).
//! Arguments: how many inputs, the first seed.

use reader_tests::arguments::asked;
use reader_tests::compare::consoles::{compare_consoles, FEW};
use reader_tests::program::Program;
use reader_tests::subject::Reference;
use std::fs;
use std::path::Path;

fn main() {
    let command = std::env::var("READER_CONSOLE").expect("READER_CONSOLE");
    let top = Path::new(env!("CARGO_MANIFEST_DIR")).join("..");
    let room = top.join("target/console_comparison");
    fs::create_dir_all(&room).expect("a folder for input and output");
    let program = Program::new(&command, &room);
    let reference = Reference { work_words: 0 };
    let report = compare_consoles(&reference, &program, asked(1, 1), asked(0, FEW));
    print!("{report}");
    if let Some(failure) = &report.failure {
        fs::write(room.join("differs.console"), &failure.shrunk).expect("a file");
        println!("once more: ./run target/console_comparison/differs.console");
    }
    if let Err(told) = report.verdict() {
        println!("{told}");
        std::process::exit(1);
    }
}
