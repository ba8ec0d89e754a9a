//! Named tables of a case file: records as in a listing, zeros at the end of a record left out.

use super::pieces::{bytes, number};
use crate::random::draft::Draft;
use crate::reference::table::{NODE_WORDS, RULE_WORDS};
use std::collections::HashMap;

pub fn begin(tables: &mut HashMap<String, Draft>, name: &str) -> Result<String, String> {
    if tables.insert(name.to_string(), Draft::default()).is_some() {
        return Err(format!("a second table {name}"));
    }
    Ok(name.to_string())
}

pub fn add(table: &mut Draft, word: &str, rest: &str) -> Result<(), String> {
    if word == "literals" {
        table.literals = bytes(rest)?;
        return Ok(());
    }
    let (numbers, words) = rest.split_once(':').ok_or("no colon".to_string())?;
    let (first, last) = match numbers.split_once(" to ") {
        Some((first, last)) => (number(first)?, number(last)?),
        None => (number(numbers)?, number(numbers)?),
    };
    for index in first..=last {
        if word == "rule" {
            in_order(index, table.rules.len())?;
            table.rules.push(record::<RULE_WORDS>(index, words)?);
        } else {
            in_order(index, table.nodes.len())?;
            table.nodes.push(record::<NODE_WORDS>(index, words)?);
        }
    }
    Ok(())
}

/// The numbers written before records are there for the reader of the file: they must be right.
fn in_order(written: usize, due: usize) -> Result<(), String> {
    if written == due {
        return Ok(());
    }
    Err(format!("record {written} where {due} is due"))
}

/// `self` stands for the record's own number, `previous` for one less.
fn record<const WORDS: usize>(index: usize, text: &str) -> Result<[u16; WORDS], String> {
    let mut record = [0; WORDS];
    for (place, word) in text.split_whitespace().enumerate() {
        let held = match word {
            "self" => index as u16,
            "previous" => index as u16 - 1,
            _ => number(word)?,
        };
        *record.get_mut(place).ok_or("too many words".to_string())? = held;
    }
    Ok(record)
}
