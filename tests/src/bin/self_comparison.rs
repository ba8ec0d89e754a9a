//! Compares the reference with itself, to show what the random cases reach.
//! Arguments: how many cases, the first seed, W.

use reader_tests::arguments::asked;
use reader_tests::compare::compare;
use reader_tests::subject::Reference;

fn main() {
    let reference = Reference {
        work_words: asked(2, 16_384) as usize,
    };
    let report = compare(&reference, &reference, asked(1, 1), asked(0, 200_000));
    print!("{report}");
    if let Err(told) = report.verdict() {
        println!("{told}");
        std::process::exit(1);
    }
}
