//! Advice to a refusal by the checks, in words: a line or some lines.

use super::page::Page;
use super::verdict::Verdict;
use super::{field, types, uses};
use reader_tests::numbers::{FIELD, SIZE, START, TYPE, USE};

/// What the advice sees for itself at the verdict's place; nothing where it sees
/// nothing wrong there.
pub fn of(page: &Page, verdict: Verdict) -> Option<String> {
    let place = verdict.place as usize;
    match verdict.number {
        SIZE => Some("the counts of the head and the lengths of the table do not fit".to_string()),
        FIELD => field::advice(page, place),
        USE => uses::advice(page, place),
        START => start(page),
        TYPE => types::advice(page, place),
        _ => None,
    }
}

pub const NONE: &str = "there is no advice for this verdict";

fn start(page: &Page) -> Option<String> {
    let inherited = page.table.inherited(0);
    (inherited > 0).then(|| {
        format!(
            "{}, the start, inherits {inherited}: the 2nd number there must be 0, and so must the four types after it",
            page.rule(0)
        )
    })
}
