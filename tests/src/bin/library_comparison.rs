//! Compares the proved reader, through its static library, with the reference,
//! and tries what only the library has: tags and lent slices of every length.
//! Arguments: how many cases, the first seed.

use reader_tests::arguments::asked;
use reader_tests::compare::exports::{compare_exports, Extent};
use reader_tests::library::Library;

fn main() {
    let extent = Extent {
        cases: asked(0, 200_000),
        first_seed: asked(1, 1),
        kinds: |_| true,
    };
    if let Err(difference) = compare_exports(&Library, &extent) {
        println!("{difference}");
        std::process::exit(1);
    }
}
