//! Cases of a case file: what is asked, of which table, with which changes.

use super::pieces::{bytes, first_word, number};
use super::WORK_WORDS;
use crate::random::draft::Draft;
use crate::subject::{Home, Span, Value};
use std::collections::HashMap;

#[derive(Clone, Copy, PartialEq, Eq)]
pub enum Asked {
    Check,
    TypeCheck,
    Bench,
    Display,
    Text,
    Write,
}

/// More bytes than the largest listing has.
const ENOUGH_BYTES: usize = 100_000;

#[derive(Clone)]
pub struct Case {
    pub name: String,
    pub asked: Asked,
    /// One table, or one for each of the values or words that `each` names.
    pub tables: Vec<Vec<u16>>,
    pub literals: Vec<u8>,
    pub message: Vec<u8>,
    pub budget: u32,
    pub work: usize,
    pub value: Value,
    /// How many bytes are lent to write into.
    pub room: usize,
}

type Read<T> = Result<T, String>;

/// `both` makes two cases, all else one.
pub fn read(word: &str, rest: &str, tables: &HashMap<String, Draft>) -> Read<Vec<Case>> {
    let (name, settings) = rest.split_once(": ").ok_or("no colon".to_string())?;
    let asked: &[(&str, Asked)] = match word {
        "check" => &[("check", Asked::Check)],
        "type" => &[("type", Asked::TypeCheck)],
        "bench" => &[("bench", Asked::Bench)],
        "display" => &[("display", Asked::Display)],
        "both" => &[("bench", Asked::Bench), ("display", Asked::Display)],
        "text" => &[("text", Asked::Text)],
        "write" => &[("write", Asked::Write)],
        _ => return Err(format!("{word} is no question")),
    };
    let one =
        |&(said, asked): &(&str, Asked)| case(format!("{said} {name}"), asked, settings, tables);
    asked.iter().map(one).collect()
}

fn case(name: String, asked: Asked, settings: &str, tables: &HashMap<String, Draft>) -> Read<Case> {
    let mut settings = settings.split(';').map(str::trim);
    let none = Draft::default();
    let table = if asked == Asked::Text {
        &none
    } else {
        let table = settings.next().unwrap_or_default();
        tables.get(table).ok_or(format!("no table {table}"))?
    };
    let mut case = Case {
        name,
        asked,
        tables: vec![table.words()],
        literals: table.literals.clone(),
        message: Vec::new(),
        budget: 1_000,
        work: WORK_WORDS + 3,
        value: Value::Absent,
        room: ENOUGH_BYTES,
    };
    for setting in settings {
        set(&mut case, setting)?;
    }
    Ok(case)
}

fn set(case: &mut Case, setting: &str) -> Read<()> {
    let (word, rest) = first_word(setting);
    match word {
        "word" => change(case, rest)?,
        "each" => change_each(case, rest)?,
        "words" => change_all(case, rest)?,
        "first" => {
            let kept = number(rest.strip_suffix(" words").unwrap_or(rest))?;
            case.tables
                .iter_mut()
                .for_each(|words| words.truncate(kept));
        }
        "append" => {
            let added = number(rest)?;
            case.tables.iter_mut().for_each(|words| words.push(added));
        }
        "literals" => case.literals = bytes(rest)?,
        "message" => case.message = bytes(rest)?,
        "budget" => case.budget = number(rest)?,
        "work" => case.work = work(rest)?,
        "value" => case.value = value(rest)?,
        "room" => case.room = number(rest)?,
        _ => return Err(format!("{word} sets nothing")),
    }
    Ok(())
}

fn work(text: &str) -> Read<usize> {
    match text {
        "W" => Ok(WORK_WORDS),
        "W-1" => Ok(WORK_WORDS - 1),
        _ => number(text),
    }
}

/// `word 54 = 255`, or `word 54 = each 0 255 256`: a table for each value.
fn change(case: &mut Case, text: &str) -> Read<()> {
    let (place, held) = text.split_once(" = ").ok_or("no =".to_string())?;
    let place = number(place)?;
    let held: Vec<u16> = match held.strip_prefix("each ") {
        Some(several) => several
            .split_whitespace()
            .map(number)
            .collect::<Read<_>>()?,
        None => vec![number(held)?],
    };
    // A change that changes nothing would try something else than its case says.
    if held.len() == 1
        && case
            .tables
            .iter()
            .any(|words| words.get(place) == Some(&held[0]))
    {
        return Err(format!("word {place} is {} already", held[0]));
    }
    with_each(case, held.iter().map(|&held| (place, held)).collect())
}

/// `each word 36 to 42 = 1`: a table for each word.
fn change_each(case: &mut Case, text: &str) -> Read<()> {
    let parted = text
        .strip_prefix("word ")
        .and_then(|text| text.split_once(" = "));
    let (places, held) = parted.ok_or("no word and =".to_string())?;
    let (first, last) = places.split_once(" to ").ok_or("no to".to_string())?;
    let held = number(held)?;
    let places = number(first)?..=number(last)?;
    with_each(case, places.map(|place| (place, held)).collect())
}

/// `words 3 to 47 = 65535` or `words 3 to 47 = place`: all of them in one table.
fn change_all(case: &mut Case, text: &str) -> Read<()> {
    let (places, held) = text.split_once(" = ").ok_or("no =".to_string())?;
    let (first, last) = places.split_once(" to ").ok_or("no to".to_string())?;
    for place in number::<usize>(first)?..=number(last)? {
        let held = if held == "place" {
            place as u16
        } else {
            number(held)?
        };
        for words in &mut case.tables {
            *words.get_mut(place).ok_or(format!("no word {place}"))? = held;
        }
    }
    Ok(())
}

fn with_each(case: &mut Case, changes: Vec<(usize, u16)>) -> Read<()> {
    let mut tables = Vec::new();
    for (place, held) in changes {
        for words in &case.tables {
            let mut words = words.clone();
            *words.get_mut(place).ok_or(format!("no word {place}"))? = held;
            tables.push(words);
        }
    }
    case.tables = tables;
    Ok(())
}

/// `absent`, `bool 1`, `integer -3`, `message 0 4` or `literals 0 4`: start and length.
fn value(text: &str) -> Read<Value> {
    let words: Vec<&str> = text.split_whitespace().collect();
    let span = |home, start, length| -> Read<Value> {
        let (start, length) = (number(start)?, number(length)?);
        Ok(Value::Text(Span {
            home,
            start,
            length,
        }))
    };
    match words[..] {
        ["absent"] => Ok(Value::Absent),
        ["bool", held] => Ok(Value::Bool(number::<u8>(held)? == 1)),
        ["integer", held] => Ok(Value::Integer(number(held)?)),
        ["message", start, length] => span(Home::Message, start, length),
        ["literals", start, length] => span(Home::Literals, start, length),
        _ => Err(format!("{text} is no value")),
    }
}
