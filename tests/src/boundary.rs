//! What the exported functions do with a tag that has no row, and with a slice
//! for the answer that is too short (docs/DECISIONS.md, "Slices that a caller
//! lends too short"): document 01 has no row for either.

use crate::exported::{Exports, VERSION, WORK_WORDS};
use crate::reference::run::Lent;
use std::fmt::Debug;

/// Case A of document 01.
const CASE_A: &str = "rules=1\nnodes=3\nliterals=\nrule=1 0 0 0 0 0 1 2 0 0 0 3 0 0 0\n\
    node=2 71 0 0 0 0 0 0 0 0\nnode=8 0 0 0 0 0 0 0 0 0\nnode=19 0 0 0 0 0 0 0 0 0\n";

/// What stands in a lent slice before the call.
const DIRT: u8 = 0xa5;

pub fn try_boundary(exports: &dyn Exports) -> Result<(), String> {
    expect("W", &exports.work_words(), &WORK_WORDS)?;
    expect("the version", &exports.version(), &VERSION)?;
    let mut words = [0u16; 48];
    let mut read = [u64::from(DIRT); 4];
    exports.read_into(CASE_A.as_bytes(), &mut words, &mut [], &mut read);
    expect("case A is read", &read, &[0, 0, 48, 0])?;
    unknown_tags(exports)?;
    short_records(exports, &words)?;
    short_reading(exports, &read)?;
    short_writing(exports, &words)
}

/// A tag that has no row stands for an absent value: no bytes.
fn unknown_tags(exports: &dyn Exports) -> Result<(), String> {
    for tag in [0, 1, 2, 5, 6, 255, 256, 65_535, 65_536, u32::MAX] {
        for payload in [0, 1, 65_537, u32::MAX] {
            let word = exports.text_word(65_535, 4_096, tag, payload);
            expect(&format!("the bytes of tag {tag}"), &word, &0)?;
        }
    }
    expect(
        "a part of the message",
        &exports.text_word(2, 0, 3, 65_537),
        &65_537,
    )
}

fn short_records(exports: &dyn Exports, words: &[u16]) -> Result<(), String> {
    let whole = [0, 0, 1, 2, 3, 1, 0, 0, 0, 0, 0, 0];
    for display in [false, true] {
        let lent = Lent {
            display,
            words,
            literals: &[],
            message: b"G1",
            budget: 2,
        };
        fitting(&whole, |twelve| {
            let mut work = vec![u32::from(DIRT); WORK_WORDS];
            exports.run_into(&lent, &mut work, twelve);
        })?;
    }
    Ok(())
}

fn short_reading(exports: &dyn Exports, whole: &[u64]) -> Result<(), String> {
    fitting(whole, |answer| {
        exports.read_into(CASE_A.as_bytes(), &mut [0; 48], &mut [], answer);
    })
}

fn short_writing(exports: &dyn Exports, words: &[u16]) -> Result<(), String> {
    let length = CASE_A.len();
    fitting(&[0, 0, length as u64, 0], |answer| {
        exports.write_into(words, &[], &mut vec![DIRT; length], answer);
    })
}

/// Lends 0, 1, .. places for the answer and two more: those that fit hold the
/// answer's beginning, and what is behind the answer stays.
fn fitting<Word>(whole: &[Word], call: impl Fn(&mut [Word])) -> Result<(), String>
where
    Word: Copy + PartialEq + Debug + From<u8>,
{
    let dirt = Word::from(DIRT);
    for lent in 0..=whole.len() + 2 {
        let mut answer = vec![dirt; lent];
        call(&mut answer);
        let wanted: Vec<Word> = (0..lent)
            .map(|i| whole.get(i).copied().unwrap_or(dirt))
            .collect();
        expect(&format!("an answer in {lent} places"), &answer, &wanted)?;
    }
    Ok(())
}

fn expect<T: PartialEq + Debug + ?Sized>(what: &str, given: &T, wanted: &T) -> Result<(), String> {
    if given == wanted {
        return Ok(());
    }
    Err(format!("{what}: {given:?}, not {wanted:?}"))
}
