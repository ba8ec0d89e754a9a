//! The proved verdict: the linked library's, number and place.

use super::page::Page;
use reader_tests::library::Library;
use reader_tests::numbers::{ALL, DONE, LINE};
use reader_tests::reference::console::MOST_WORDS;
use reader_tests::reference::table::{Table, MOST_LITERALS};
use reader_tests::subject::Subject;

#[derive(Clone, Copy, Debug, PartialEq, Eq)]
pub struct Verdict {
    pub number: u32,
    pub place: u32,
}

impl Verdict {
    pub fn passed(self) -> bool {
        self.number == DONE
    }

    /// "passed", or "5 TYPE, place 0".
    pub fn line(self) -> String {
        if self.passed() {
            return "passed".to_string();
        }
        let name = ALL.iter().find(|(number, _)| *number == self.number);
        let name = name.map_or("UNKNOWN", |(_, name)| name);
        format!("{} {name}, place {}", self.number, self.place)
    }
}

/// A table that was read.
pub struct Read {
    words: Vec<u16>,
    literals: Vec<u8>,
    before: usize,
}

impl Read {
    pub fn page(&self) -> Page<'_> {
        let table = Table {
            words: &self.words,
            literals: &self.literals,
        };
        Page {
            table,
            before: self.before,
        }
    }
}

/// The table of a listing that stands in its file after `before` other lines;
/// a refusal's line is counted from the file's first. The slices have room for
/// every table, so that ROOM never comes.
pub fn read(listing: &[u8], before: usize) -> Result<Read, Verdict> {
    let mut words = vec![0; MOST_WORDS];
    let mut literals = vec![0; MOST_LITERALS];
    let answer = Library.read(listing, &mut words, &mut literals);
    if answer.number != DONE {
        let counted = if answer.number == LINE { before } else { 0 };
        return Err(Verdict {
            number: answer.number,
            place: answer.line + counted as u32,
        });
    }
    words.truncate(answer.words);
    literals.truncate(answer.literals);
    Ok(Read {
        words,
        literals,
        before,
    })
}

type Check = fn(&Table) -> Verdict;

/// The checks of a table that was read, in order: the first that refuses has
/// the verdict. A new check (of left recursion, say) is one line here, and one
/// arm in `advice`.
const CHECKS: [Check; 1] = [type_check];

/// 1 to 5: table check and type check.
fn type_check(table: &Table) -> Verdict {
    let (number, place) = Library.type_check(table.words, table.literals);
    Verdict { number, place }
}

pub fn of_table(table: &Table) -> Verdict {
    let verdicts = CHECKS.iter().map(|check| check(table));
    let refusal = verdicts.into_iter().find(|verdict| !verdict.passed());
    refusal.unwrap_or(Verdict {
        number: DONE,
        place: 0,
    })
}
