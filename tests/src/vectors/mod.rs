//! Stored vectors: case files, read and run through a subject. How to read and write one: tests/VECTORS.md.

mod answers;
mod cases;
mod line_changes;
mod listing_answers;
mod listings;
mod pieces;
mod tables;

use crate::random::draft::Draft;
use crate::subject::Subject;
use cases::Case;
use listings::{Listing, Reading};
use std::collections::{HashMap, HashSet};

pub use crate::exported::WORK_WORDS;

pub enum Item {
    /// A sentence of document 01 over its cases: written as it stands.
    Heading(String),
    Case(Box<Case>),
    Reading(Box<Reading>),
}

impl Item {
    /// The name of a case, with its question.
    fn name(&self) -> Option<&str> {
        match self {
            Item::Heading(_) => None,
            Item::Case(case) => Some(&case.name),
            Item::Reading(reading) => Some(&reading.name),
        }
    }

    pub fn is_case(&self) -> bool {
        self.name().is_some()
    }
}

/// What the lines so far have named.
#[derive(Default)]
struct Named {
    tables: HashMap<String, Draft>,
    listings: HashMap<String, Listing>,
    open_table: String,
    open_listing: String,
}

impl Named {
    /// A line of a table or a listing, or the cases that a line makes.
    fn line(&mut self, word: &str, rest: &str) -> Result<Vec<Item>, String> {
        match word {
            "" => {}
            "table" => self.open_table = tables::begin(&mut self.tables, rest)?,
            "rule" | "node" | "literals" => {
                let table = self.tables.get_mut(&self.open_table);
                tables::add(table.ok_or("no table".to_string())?, word, rest)?;
            }
            "listing" => self.open_listing = listings::begin(&mut self.listings, rest)?,
            "line" | "room" => {
                let listing = self.listings.get_mut(&self.open_listing);
                listings::add(listing.ok_or("no listing".to_string())?, word, rest)?;
            }
            "read" => {
                let reading = listings::case(rest, &self.listings)?;
                return Ok(vec![Item::Reading(Box::new(reading))]);
            }
            _ => {
                let cases = cases::read(word, rest, &self.tables)?;
                let item = |case| Item::Case(Box::new(case));
                return Ok(cases.into_iter().map(item).collect());
            }
        }
        Ok(Vec::new())
    }
}

/// What a case file says, in order.
pub fn read(text: &str) -> Result<Vec<Item>, String> {
    let mut items = Vec::new();
    let mut named = Named::default();
    let mut names = HashSet::new();
    for (index, line) in text.lines().enumerate() {
        let told = |error: String| format!("line {}: {error}", index + 1);
        if line.starts_with("## ") {
            items.push(Item::Heading(line.to_string()));
            continue;
        }
        let line = pieces::without_comment(line).trim();
        let (word, rest) = pieces::first_word(line);
        let cases = named.line(word, rest).map_err(told)?;
        for name in cases.iter().filter_map(Item::name) {
            if !names.insert(name.to_string()) {
                return Err(told(format!("a second {name}")));
            }
        }
        items.extend(cases);
    }
    Ok(items)
}

/// The lines that a subject gives: headings as they stand, a line a case.
pub fn written(items: &[Item], subject: &dyn Subject) -> String {
    let mut text = String::new();
    for item in items {
        text += &match item {
            Item::Heading(sentence) => sentence.clone(),
            Item::Case(case) => format!("{}: {}", case.name, answers::of(case, subject)),
            Item::Reading(reading) => {
                format!(
                    "{}: {}",
                    reading.name,
                    answers::of_reading(reading, subject)
                )
            }
        };
        text += "\n";
    }
    text
}

/// How many cases there are, all as stored, or what is wrong first: a file that says nothing would try nothing.
pub fn judged(cases: &str, stored: &str, subject: &dyn Subject) -> Result<usize, String> {
    let items = read(cases)?;
    let count = items.iter().filter(|item| item.is_case()).count();
    if count == 0 {
        return Err("there is no case".to_string());
    }
    if stored.is_empty() {
        return Err("nothing is stored".to_string());
    }
    let came = written(&items, subject);
    if let Some(line) = came.lines().find(|line| line.contains("WRONG")) {
        return Err(line.to_string());
    }
    match difference(stored, &came) {
        Some(told) => Err(format!("stored {told}")),
        None => Ok(count),
    }
}

/// The first line that differs, with its number.
fn difference(stored: &str, came: &str) -> Option<String> {
    if stored == came {
        return None;
    }
    let (mut stored, mut came) = (stored.split('\n'), came.split('\n'));
    for number in 1.. {
        let (wanted, got) = (stored.next(), came.next());
        if wanted != got {
            let [wanted, got] = [wanted, got].map(|line| line.unwrap_or("(no line)"));
            return Some(format!(
                "line {number}\n  stored: {wanted}\n  came:   {got}"
            ));
        }
    }
    None
}
