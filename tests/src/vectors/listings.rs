//! Named listings of a case file, and the cases that read them: as they stand or with changes of single lines.

use super::line_changes::{change, Text};
use super::pieces::{bytes, first_word, number};
use std::collections::HashMap;

#[derive(Clone, Default)]
pub struct Listing {
    text: Text,
    room: Room,
}

/// How many words and literals are lent.
#[derive(Clone, Copy, Default)]
pub struct Room {
    pub words: usize,
    pub literals: usize,
}

pub struct Reading {
    pub name: String,
    /// One text, or one for each of the lines or values that `each` names.
    pub texts: Vec<Vec<u8>>,
    pub room: Room,
}

type Read<T> = Result<T, String>;

pub fn begin(listings: &mut HashMap<String, Listing>, name: &str) -> Read<String> {
    let listing = Listing::default();
    if listings.insert(name.to_string(), listing).is_some() {
        return Err(format!("a second listing {name}"));
    }
    Ok(name.to_string())
}

/// `line 1: rules=1` or `room 48 2`.
pub fn add(listing: &mut Listing, word: &str, rest: &str) -> Read<()> {
    if word == "room" {
        listing.room = room(rest)?;
        return Ok(());
    }
    let (written, line) = rest.split_once(':').ok_or("no colon".to_string())?;
    listing.text.add_line(number(written)?, line.trim())
}

fn room(text: &str) -> Read<Room> {
    let (words, literals) = first_word(text);
    Ok(Room {
        words: number(words)?,
        literals: number(literals)?,
    })
}

pub fn case(rest: &str, listings: &HashMap<String, Listing>) -> Read<Reading> {
    let (name, settings) = rest.split_once(": ").ok_or("no colon".to_string())?;
    let mut settings = settings.split(';').map(str::trim);
    let listing = settings.next().unwrap_or_default();
    let listing = listings
        .get(listing)
        .ok_or(format!("no listing {listing}"))?;
    let mut texts = vec![listing.text.clone()];
    let mut lent = listing.room;
    for setting in settings {
        let (word, rest) = first_word(setting);
        match word {
            "room" => lent = room(rest)?,
            "first" => {
                let kept = number(rest.strip_suffix(" lines").unwrap_or(rest))?;
                texts.iter_mut().for_each(|text| text.keep(kept));
            }
            "append" => {
                let added = bytes(rest)?;
                texts.iter_mut().for_each(|text| text.append(&added));
            }
            "line" => texts = change(&texts, rest)?,
            "each" => {
                let rest = rest.strip_prefix("line ").ok_or("no line".to_string())?;
                texts = change(&texts, rest)?;
            }
            _ => return Err(format!("{word} sets nothing")),
        }
    }
    Ok(Reading {
        name: format!("read {name}"),
        texts: texts.iter().map(Text::bytes).collect(),
        room: lent,
    })
}
