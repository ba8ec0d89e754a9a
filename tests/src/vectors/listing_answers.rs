//! Answers of the listing's reader and writer as lines. Each call is made twice, in slices that hold different dirt and are parts of longer ones: what comes back and what
//! stands in the slices afterwards must be the same, and what isn't to be filled must be as it was lent. What is as it should be isn't told, but for the filled part.

use super::answers::numbered;
use super::listings::Room;
use super::pieces::shown;
use crate::numbers::{DONE, OUT, ROOM, SIZE};
use crate::random::draft::Draft;
use crate::subject::{ReadAnswer, Subject, WriteAnswer};

/// What stands behind a lent slice.
const BEHIND: usize = 3;

/// No element is the same in both.
const DIRTS: [fn(usize) -> u16; 2] = [
    |_| u16::MAX,
    |index| (index as u16).wrapping_mul(40_503) & 0x7f7f | 1,
];

/// Slices as long as the room says and a little longer, with what they hold.
fn lent(room: usize, dirt: fn(usize) -> u16) -> Vec<u16> {
    (0..room + BEHIND).map(dirt).collect()
}

fn lent_bytes(room: usize, dirt: fn(usize) -> u16) -> Vec<u8> {
    let words = lent(room, dirt);
    words.iter().map(|&word| word as u8).collect()
}

/// The same line for both dirts, or both lines.
fn twice(one: impl Fn(fn(usize) -> u16) -> String) -> String {
    let [first, second] = DIRTS.map(one);
    if first != second {
        return format!("WRONG: {first} | but in slices that hold something else {second}");
    }
    first
}

/// The slices after a read, and whether just the first `words` and `literals` of them have changed.
struct Read {
    answer: ReadAnswer,
    words: Vec<u16>,
    literals: Vec<u8>,
    just_filled: bool,
}

fn read(text: &[u8], room: Room, dirt: fn(usize) -> u16, subject: &dyn Subject) -> Read {
    let (lent_words, lent_literals) = (lent(room.words, dirt), lent_bytes(room.literals, dirt));
    let (mut words, mut literals) = (lent_words.clone(), lent_literals.clone());
    let answer = subject.read(
        text,
        &mut words[..room.words],
        &mut literals[..room.literals],
    );
    let fits = answer.words <= room.words && answer.literals <= room.literals;
    let just_filled = fits
        && words[answer.words..] == lent_words[answer.words..]
        && literals[answer.literals..] == lent_literals[answer.literals..];
    if fits {
        words.truncate(answer.words);
        literals.truncate(answer.literals);
    }
    Read {
        answer,
        words,
        literals,
        just_filled,
    }
}

pub fn reading(text: &[u8], room: Room, subject: &dyn Subject) -> String {
    twice(|dirt| {
        let read = read(text, room, dirt, subject);
        let ReadAnswer {
            number,
            line,
            words,
            literals,
        } = read.answer;
        let told = numbered(number, line);
        if !read.just_filled {
            return format!("{told}, WRONG: other words or literals changed");
        }
        if number != DONE && (words, literals) == (0, 0) {
            return told;
        }
        let records = records(&read.words, &read.literals);
        let again = written_again(text, &read.words, &read.literals, subject);
        format!("{told}, {words} words, {literals} literals: {records}; {again}")
    })
}

/// Records without the zeros at their end, then the literals.
fn records(words: &[u16], literals: &[u8]) -> String {
    let Some(table) = Draft::of(words, literals) else {
        return "WRONG: no table".to_string();
    };
    let record = |name: &str, words: &[u16]| {
        let last = words.iter().rposition(|&word| word != 0).unwrap_or(0);
        let kept: Vec<String> = words[..=last].iter().map(u16::to_string).collect();
        format!("{name} {}, ", kept.join(" "))
    };
    let rules = table.rules.iter().map(|words| record("rule", words));
    let nodes = table.nodes.iter().map(|words| record("node", words));
    rules.chain(nodes).collect::<String>() + &shown(literals)
}

/// The slice after a write, cut to what was told; nothing if another part of it has changed.
fn write(
    words: &[u16],
    literals: &[u8],
    room: usize,
    dirt: fn(usize) -> u16,
    subject: &dyn Subject,
) -> (WriteAnswer, Option<Vec<u8>>) {
    let lent = lent_bytes(room, dirt);
    let mut text = lent.clone();
    let answer = subject.write(words, literals, &mut text[..room]);
    let told = answer.length;
    if told > room || text[told..] != lent[told..] {
        return (answer, None);
    }
    text.truncate(told);
    (answer, Some(text))
}

/// What was read is written again: the same text, in just its length and in a byte more; OUT in a byte less and in no room, and there SIZE without the last word.
fn written_again(text: &[u8], words: &[u16], literals: &[u8], subject: &dyn Subject) -> String {
    if text.is_empty() || words.is_empty() {
        return "WRONG: no table to write".to_string();
    }
    let length = text.len();
    let gives = |words: &[u16], room, number, wanted: &[u8]| {
        let (answer, came) = write(words, literals, room, DIRTS[0], subject);
        answer.number == number && came.as_deref() == Some(wanted)
    };
    let right = gives(words, length, DONE, text)
        && gives(words, length + 1, DONE, text)
        && gives(words, length - 1, OUT, b"")
        && gives(words, 0, OUT, b"")
        && gives(&words[..words.len() - 1], 0, SIZE, b"");
    if right {
        return format!("again {length} bytes");
    }
    "WRONG: not written again".to_string()
}

pub fn writing(words: &[u16], literals: &[u8], room: usize, subject: &dyn Subject) -> String {
    twice(|dirt| {
        let (answer, text) = write(words, literals, room, dirt, subject);
        let told = numbered(answer.number, 0);
        let Some(text) = text else {
            return format!("{told}, WRONG: other bytes changed");
        };
        if answer.number != DONE && answer.length == 0 {
            return told;
        }
        let back = read_back(&text, words, literals, subject);
        format!("{told}, {} bytes{}; {back}", answer.length, lines(&text))
    })
}

/// The text with its bytes 10 as strokes, if it isn't long.
fn lines(text: &[u8]) -> String {
    if text.len() > 200 {
        return String::new();
    }
    let text = String::from_utf8_lossy(text);
    format!(": {}", text.replace('\n', " / ").trim_end())
}

/// What was written is read back: the same table, in just its room; ROOM in a word or a literal less.
fn read_back(text: &[u8], words: &[u16], literals: &[u8], subject: &dyn Subject) -> String {
    if words.is_empty() {
        return "WRONG: no table to read".to_string();
    }
    let room = Room {
        words: words.len(),
        literals: literals.len(),
    };
    let whole = read(text, room, DIRTS[0], subject);
    let same = whole.answer.number == DONE && whole.words == words && whole.literals == literals;
    let refused = |words: usize, literals: usize| {
        let short = read(text, Room { words, literals }, DIRTS[0], subject);
        short.answer.number == ROOM && short.just_filled && short.words.is_empty()
    };
    let right = same
        && refused(room.words - 1, room.literals)
        && (room.literals == 0 || refused(room.words, room.literals - 1));
    if right {
        return format!("back {} words, {} literals", room.words, room.literals);
    }
    "WRONG: not read back".to_string()
}
