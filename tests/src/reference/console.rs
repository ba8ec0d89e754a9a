//! "Console": bytes in, bytes out.
//!
//! Readings chosen here:
//! - Every printed line ends with byte 10, `answer=23` too.
//! - The console lends room for the greatest table and W words of work, so
//!   ROOM, SIZE and WORK never come from it; nor does LONG, for want of input.
//! - Lines of the listing are counted on from `mode=`, so `rules=` is line 4.
//! - The first wrong line of the whole input is answered before any check.
//! - An empty Text prints `value=3` with no space after it.

use super::listing::{decimal, hex, hex_of, read_table, Lines, Refusal};
use super::run::{run, Lent};
use super::table::{MOST_LITERALS, MOST_NODES, MOST_RULES, NODE_WORDS, RULE_WORDS};
use super::text::{bytes_at, text_bytes};
use crate::numbers::INPUT;
use crate::subject::{Record, Value};

pub const MOST_INPUT: usize = 65_536;
pub const MOST_WORDS: usize = 3 + RULE_WORDS * MOST_RULES + NODE_WORDS * MOST_NODES;

pub struct Asked {
    pub display: bool,
    pub budget: u32,
    pub message: Vec<u8>,
    pub words: Vec<u16>,
    pub literals: Vec<u8>,
}

pub fn console(input: &[u8]) -> Vec<u8> {
    if input.len() > MOST_INPUT {
        return format!("answer={INPUT}\n").into_bytes();
    }
    match asked(input) {
        Ok(asked) => {
            let record = run(&lent(&asked), &mut [], 0);
            printed(&record, &asked.message, &asked.literals)
        }
        Err(refusal) => printed(&Record::refusal(refusal.number, refusal.line), &[], &[]),
    }
}

pub fn asked(input: &[u8]) -> Result<Asked, Refusal> {
    let mut lines = Lines::new(input);
    let display = lines.next("mode=", mode)?;
    let budget = lines.next("budget=", |text| decimal(text, u32::MAX as u64))?;
    let message = lines.next("message=", hex)?;
    let (words, literals) = read_table(&mut lines, MOST_WORDS, MOST_LITERALS)?;
    Ok(Asked {
        display,
        budget: budget as u32,
        message,
        words,
        literals,
    })
}

fn mode(text: &[u8]) -> Option<bool> {
    match text {
        b"bench" => Some(false),
        b"display" => Some(true),
        _ => None,
    }
}

fn lent(asked: &Asked) -> Lent<'_> {
    Lent {
        display: asked.display,
        words: &asked.words,
        literals: &asked.literals,
        message: &asked.message,
        budget: asked.budget,
    }
}

fn printed(record: &Record, message: &[u8], literals: &[u8]) -> Vec<u8> {
    let mut text = format!(
        "answer={}\nplace={}\nconsumed={}\nvisits={}\n",
        record.number, record.place, record.consumed, record.visits
    );
    for &value in &record.values {
        text += &format!("value={}\n", value_text(value, message, literals));
    }
    text.into_bytes()
}

fn value_text(value: Value, message: &[u8], literals: &[u8]) -> String {
    match value {
        Value::Absent => "0".to_string(),
        Value::Bool(held) => format!("1 {}", held as u8),
        Value::Integer(held) => format!("2 {held}"),
        Value::Text(_) => {
            let span = text_bytes(message, literals, value);
            let bytes = bytes_at(message, literals, span);
            if bytes.is_empty() {
                "3".to_string()
            } else {
                format!("3 {}", hex_of(bytes))
            }
        }
        Value::Stray { .. } => unreachable!("a run of the reference has no such value"),
    }
}
