//! check FILE: the proved verdict on a listing, or on that of a console input,
//! on standard output; advice on standard error, but for LINE (desk/line.sh).
//! Exit status: 0 passed, 1 refused, 2 nothing could be read or written.

use reader_desk::advice;
use reader_desk::page::listing_of;
use reader_desk::verdict::{of_table, read, Verdict};
use reader_tests::numbers::LINE;
use std::io::Write;
use std::process::ExitCode;

fn main() -> ExitCode {
    let Some(path) = std::env::args_os().nth(1) else {
        eprintln!("check: usage: check FILE");
        return ExitCode::from(2);
    };
    let file = match std::fs::read(&path) {
        Ok(file) => file,
        Err(error) => {
            eprintln!("check: {error}");
            return ExitCode::from(2);
        }
    };
    let (verdict, advice) = judged(&file);
    if let Err(error) = told(verdict) {
        eprintln!("check: {error}");
        return ExitCode::from(2);
    }
    if let Some(advice) = advice {
        eprintln!("{advice}");
    }
    ExitCode::from(u8::from(!verdict.passed()))
}

fn judged(file: &[u8]) -> (Verdict, Option<String>) {
    let (listing, before) = listing_of(file);
    let read = match read(listing, before) {
        Ok(read) => read,
        Err(verdict) if verdict.number == LINE => return (verdict, None),
        Err(verdict) => return (verdict, Some(advice::NONE.to_string())),
    };
    let page = read.page();
    let verdict = of_table(&page.table);
    if verdict.passed() {
        return (verdict, None);
    }
    let advice = advice::of(&page, verdict);
    (
        verdict,
        Some(advice.unwrap_or_else(|| advice::NONE.to_string())),
    )
}

fn told(verdict: Verdict) -> std::io::Result<()> {
    let mut out = std::io::stdout();
    writeln!(out, "{}", verdict.line())?;
    out.flush()
}
