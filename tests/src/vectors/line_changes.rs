//! Changes of single lines of a text. Where several lines or values are named, a text comes for each.

use super::pieces::{bytes, first_word, number};

#[derive(Clone)]
struct Line {
    held: Vec<u8>,
    /// Byte 10, if nothing has been put in its place.
    end: Vec<u8>,
}

#[derive(Clone, Default)]
pub struct Text {
    lines: Vec<Line>,
    /// What stands behind the last line.
    after: Vec<u8>,
}

type Read<T> = Result<T, String>;

impl Text {
    pub fn bytes(&self) -> Vec<u8> {
        let mut text = Vec::new();
        for line in &self.lines {
            text.extend(&line.held);
            text.extend(&line.end);
        }
        text.extend(&self.after);
        text
    }

    /// The numbers written before lines are there for the reader of the file: they must be right.
    pub fn add_line(&mut self, written: usize, line: &str) -> Read<()> {
        let due = self.lines.len() + 1;
        if written != due {
            return Err(format!("line {written} where {due} is due"));
        }
        self.lines.push(Line {
            held: line.as_bytes().to_vec(),
            end: vec![10],
        });
        Ok(())
    }

    pub fn keep(&mut self, lines: usize) {
        self.lines.truncate(lines);
    }

    pub fn append(&mut self, added: &[u8]) {
        self.after.extend(added);
    }
}

/// `4 = "rule=x"`, `1 2 4 to 7 first "=" = "=0"`: the numbers of lines, then what is done to one of them in each text.
pub fn change(texts: &[Text], setting: &str) -> Read<Vec<Text>> {
    let (lines, edit) = numbers(setting)?;
    let mut changed = Vec::new();
    for &line in &lines {
        for text in texts {
            if line == 0 || line > text.lines.len() {
                return Err(format!("no line {line}"));
            }
            changed.extend(edited(text, line - 1, edit)?);
        }
    }
    Ok(changed)
}

/// `1 2 4 to 7 ..`: these numbers, and what follows them.
fn numbers(setting: &str) -> Read<(Vec<usize>, &str)> {
    let mut lines: Vec<usize> = Vec::new();
    let mut rest = setting;
    loop {
        let (word, behind) = first_word(rest);
        if word == "to" {
            let (last, behind) = first_word(behind);
            let first = lines.pop().ok_or("to what?".to_string())?;
            lines.extend(first..=number(last)?);
            rest = behind;
        } else if word.starts_with(|letter: char| letter.is_ascii_digit()) {
            lines.push(number(word)?);
            rest = behind;
        } else {
            return Ok((lines, rest));
        }
    }
}

fn edited(text: &Text, index: usize, edit: &str) -> Read<Vec<Text>> {
    let (word, rest) = first_word(edit);
    let mut changed = text.clone();
    let line = &mut changed.lines[index];
    match word {
        "missing" => drop(changed.lines.remove(index)),
        "twice" => {
            let again = line.clone();
            changed.lines.insert(index, again);
        }
        "before" => drop(line.held.splice(..0, bytes(rest)?)),
        "after" => line.held.extend(bytes(rest)?),
        "end" => line.end = bytes(rest)?,
        "first" | "last" => line.held = replaced(&line.held, word == "first", rest)?,
        "=" => return with_each(text, index, rest),
        _ => return Err(format!("{word:?} changes no line")),
    }
    Ok(vec![changed])
}

/// `"=" = "=0"`: the first or the last such piece of a line, and what stands there instead.
fn replaced(held: &[u8], first: bool, pieces: &str) -> Read<Vec<u8>> {
    let [old, new] = quoted(pieces)[..] else {
        return Err(format!("{pieces} isn't two pieces"));
    };
    let mut places = (0..held.len()).filter(|&place| held[place..].starts_with(old.as_bytes()));
    let place = if first { places.next() } else { places.last() };
    let place = place.ok_or(format!("no {old:?} there"))?;
    let behind = &held[place + old.len()..];
    Ok([&held[..place], new.as_bytes(), behind].concat())
}

/// `"rules=01"` or `each "rules=01" "rules=+1"`: a text for each.
fn with_each(text: &Text, index: usize, values: &str) -> Read<Vec<Text>> {
    let held = match values.strip_prefix("each ") {
        Some(several) => quoted(several)
            .iter()
            .map(|held| held.as_bytes().to_vec())
            .collect(),
        None => vec![bytes(values)?],
    };
    let with = |held: Vec<u8>| {
        // A change that changes nothing would try something else than its case says.
        if text.lines[index].held == held {
            return Err(format!("line {} is that already", index + 1));
        }
        let mut changed = text.clone();
        changed.lines[index].held = held;
        Ok(changed)
    };
    held.into_iter().map(with).collect()
}

/// What stands between quotes.
fn quoted(text: &str) -> Vec<&str> {
    text.split('"').skip(1).step_by(2).collect()
}
