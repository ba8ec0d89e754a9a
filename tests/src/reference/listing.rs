//! "Listing": reader and writer.
//!
//! Readings chosen here:
//! - The first wrong or missing line is answered; a line without its byte 10 is
//!   wrong under its own number, a missing one under the number it would have.
//! - A count of literal bytes over 4,096 makes line 3 wrong.
//! - ROOM comes after lines 1 to 3 are right and before line 4 is looked at;
//!   its line is 0.
//! - Bytes past the last line are wrong under the number R + K + 4, ended by a
//!   byte 10 or not.
//! - The reader doesn't check the table; the writer checks SIZE only.
//! - On a refusal the lengths are 0.

use super::check::size_is_right;
use super::table::{Table, MOST_LITERALS, MOST_NODES, MOST_RULES, NODE_WORDS, RULE_WORDS};
use crate::numbers::{DONE, LINE, OUT, ROOM, SIZE};
use crate::subject::{ReadAnswer, WriteAnswer};

pub struct Refusal {
    pub number: u32,
    pub line: u32,
}

pub fn read(text: &[u8], words: &mut [u16], literals: &mut [u8]) -> ReadAnswer {
    let mut lines = Lines::new(text);
    match read_table(&mut lines, words.len(), literals.len()) {
        Ok((read_words, read_literals)) => {
            words[..read_words.len()].copy_from_slice(&read_words);
            literals[..read_literals.len()].copy_from_slice(&read_literals);
            ReadAnswer {
                number: DONE,
                line: 0,
                words: read_words.len(),
                literals: read_literals.len(),
            }
        }
        Err(refusal) => ReadAnswer {
            number: refusal.number,
            line: refusal.line,
            words: 0,
            literals: 0,
        },
    }
}

/// The lines not read yet and the number of those read.
pub struct Lines<'a> {
    rest: &'a [u8],
    number: u32,
}

impl<'a> Lines<'a> {
    pub fn new(text: &'a [u8]) -> Lines<'a> {
        Lines {
            rest: text,
            number: 0,
        }
    }

    /// What follows `name` in the next line, if `right` makes something of it.
    pub fn next<T>(
        &mut self,
        name: &str,
        right: impl Fn(&[u8]) -> Option<T>,
    ) -> Result<T, Refusal> {
        self.number += 1;
        let wrong = Refusal {
            number: LINE,
            line: self.number,
        };
        let Some(end) = self.rest.iter().position(|&byte| byte == 10) else {
            return Err(wrong);
        };
        let line = &self.rest[..end];
        self.rest = &self.rest[end + 1..];
        let value = line.strip_prefix(name.as_bytes()).and_then(right);
        value.ok_or(wrong)
    }

    fn end(&self) -> Result<(), Refusal> {
        if self.rest.is_empty() {
            return Ok(());
        }
        Err(Refusal {
            number: LINE,
            line: self.number + 1,
        })
    }
}

pub fn read_table(
    lines: &mut Lines,
    word_room: usize,
    literal_room: usize,
) -> Result<(Vec<u16>, Vec<u8>), Refusal> {
    let rules = lines.next("rules=", |text| count(text, 1, MOST_RULES))?;
    let nodes = lines.next("nodes=", |text| count(text, 1, MOST_NODES))?;
    let literals = lines.next("literals=", |text| {
        hex(text).filter(|bytes| bytes.len() <= MOST_LITERALS)
    })?;
    let needed = 3 + RULE_WORDS * rules + NODE_WORDS * nodes;
    if word_room < needed || literal_room < literals.len() {
        return Err(Refusal {
            number: ROOM,
            line: 0,
        });
    }
    let mut words = vec![rules as u16, nodes as u16, literals.len() as u16];
    for _ in 0..rules {
        words.extend(lines.next("rule=", |text| numbers(text, RULE_WORDS))?);
    }
    for _ in 0..nodes {
        words.extend(lines.next("node=", |text| numbers(text, NODE_WORDS))?);
    }
    lines.end()?;
    Ok((words, literals))
}

fn count(text: &[u8], least: usize, most: usize) -> Option<usize> {
    let value = decimal(text, most as u64)? as usize;
    (value >= least).then_some(value)
}

fn numbers(text: &[u8], wanted: usize) -> Option<Vec<u16>> {
    let pieces = text.split(|&byte| byte == b' ');
    let read: Option<Vec<u16>> = pieces
        .map(|piece| decimal(piece, 65_535).map(|value| value as u16))
        .collect();
    read.filter(|values| values.len() == wanted)
}

/// A decimal up to `most`, "no leading zero".
pub fn decimal(text: &[u8], most: u64) -> Option<u64> {
    if text.is_empty() || (text.len() > 1 && text[0] == b'0') {
        return None;
    }
    let mut value = 0u64;
    for &byte in text {
        if !byte.is_ascii_digit() {
            return None;
        }
        value = value * 10 + (byte - b'0') as u64;
        if value > most {
            return None;
        }
    }
    Some(value)
}

/// "lower-case hex pairs, maybe none"
pub fn hex(text: &[u8]) -> Option<Vec<u8>> {
    if text.len() % 2 != 0 {
        return None;
    }
    let pair = |pair: &[u8]| Some(hex_digit(pair[0])? << 4 | hex_digit(pair[1])?);
    text.chunks(2).map(pair).collect()
}

fn hex_digit(byte: u8) -> Option<u8> {
    match byte {
        b'0'..=b'9' => Some(byte - b'0'),
        b'a'..=b'f' => Some(byte - b'a' + 10),
        _ => None,
    }
}

pub fn write(words: &[u16], literals: &[u8], text: &mut [u8]) -> WriteAnswer {
    let refusal = |number| WriteAnswer { number, length: 0 };
    if !size_is_right(words, literals) {
        return refusal(SIZE);
    }
    let listing = listing_of(&Table { words, literals });
    if text.len() < listing.len() {
        return refusal(OUT);
    }
    text[..listing.len()].copy_from_slice(listing.as_bytes());
    WriteAnswer {
        number: DONE,
        length: listing.len(),
    }
}

/// The listing of a table that passed SIZE.
pub fn listing_of(table: &Table) -> String {
    let mut text = format!("rules={}\nnodes={}\n", table.rules(), table.nodes());
    text += &format!("literals={}\n", hex_of(table.literals));
    for rule in 0..table.rules() {
        let place = table.rule_place(rule);
        text += &line_of("rule=", &table.words[place..place + RULE_WORDS]);
    }
    for node in 0..table.nodes() {
        let place = table.node_place(node);
        text += &line_of("node=", &table.words[place..place + NODE_WORDS]);
    }
    text
}

fn line_of(name: &str, words: &[u16]) -> String {
    let decimals: Vec<String> = words.iter().map(u16::to_string).collect();
    format!("{name}{}\n", decimals.join(" "))
}

pub fn hex_of(bytes: &[u8]) -> String {
    bytes.iter().map(|byte| format!("{byte:02x}")).collect()
}
