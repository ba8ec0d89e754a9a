//! The exported functions beside the reference: random cases, words as kinds, and
//! what only the boundary has.

use super::{compare, compare_kinds};
use crate::boundary::try_boundary;
use crate::exported::{Exports, WORK_WORDS};
use crate::subject::Reference;

/// How much is tried.
pub struct Extent {
    pub first_seed: u64,
    pub cases: u64,
    /// Which words are tried as a kind.
    pub kinds: fn(&u16) -> bool,
}

/// Prints what was reached, or tells the first difference.
pub fn compare_exports<E: Exports>(exports: &E, extent: &Extent) -> Result<(), String> {
    try_boundary(exports)?;
    println!("W, the version, tags without a row, answers in slices of every length: as stated");
    let reference = Reference {
        work_words: WORK_WORDS,
    };
    let report = compare(&reference, exports, extent.first_seed, extent.cases);
    print!("{report}");
    report.verdict()?;
    let kinds = (0..=u16::MAX).filter(extent.kinds);
    let count = compare_kinds(&reference, exports, kinds)?;
    println!("{count} of 65536 words as kinds: the same");
    Ok(())
}
