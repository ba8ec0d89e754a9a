//! The console program, started once for every input.

use crate::subject::Console;
use std::fs::{self, File};
use std::path::{Path, PathBuf};
use std::process::{Child, Command, ExitStatus};
use std::thread::sleep;
use std::time::{Duration, Instant};

/// Far more than any input of the comparison takes, even under an emulator.
const LONGEST: Duration = Duration::from_secs(30);

pub struct Program {
    words: Vec<String>,
    input: PathBuf,
    output: PathBuf,
}

impl Program {
    /// `command` has a word a line, as tests/console_command.sh prints it. The
    /// files that stand for standard input and output lie in `room`.
    pub fn new(command: &str, room: &Path) -> Program {
        Program {
            words: command.lines().map(str::to_string).collect(),
            input: room.join("input"),
            output: room.join("output"),
        }
    }

    fn start(&self, input: &[u8]) -> std::io::Result<Child> {
        fs::write(&self.input, input)?;
        Command::new(&self.words[0])
            .args(&self.words[1..])
            .stdin(File::open(&self.input)?)
            .stdout(File::create(&self.output)?)
            .spawn()
    }
}

impl Console for Program {
    fn respond(&self, input: &[u8]) -> Result<Vec<u8>, String> {
        let told = |error: std::io::Error| format!("the console program: {error}");
        let mut child = self.start(input).map_err(told)?;
        let status = ended(&mut child).map_err(told)?;
        if !status.success() {
            return Err(format!("the console program: {status}"));
        }
        fs::read(&self.output).map_err(told)
    }
}

/// A program that doesn't end is ended, so that its input can be told.
fn ended(child: &mut Child) -> std::io::Result<ExitStatus> {
    let begun = Instant::now();
    loop {
        if let Some(status) = child.try_wait()? {
            return Ok(status);
        }
        if begun.elapsed() > LONGEST {
            child.kill()?;
            return child.wait();
        }
        sleep(Duration::from_micros(200));
    }
}
