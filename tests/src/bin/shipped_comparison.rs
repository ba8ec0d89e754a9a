//! Compares the shipped archive, called from C with docs/styrmflo.h, with the
//! reference: other cases than library_comparison tries, fewer, since each goes
//! through a pipe, and some of the words as kinds. READER_SHIPPED is the command
//! that starts its caller (tests/shipped.sh prints it).
//! Arguments: how many cases, the first seed.

use reader_tests::arguments::asked;
use reader_tests::compare::exports::{compare_exports, Extent};
use reader_tests::shipped::Shipped;

fn main() {
    let command = std::env::var("READER_SHIPPED").expect("READER_SHIPPED");
    let extent = Extent {
        cases: asked(0, 10_000),
        first_seed: asked(1, 200_001),
        kinds: |kind| *kind < 256 || kind % 257 == 0,
    };
    let shipped = Shipped::new(&command);
    let compared = shipped
        .header_is_right()
        .and_then(|()| compare_exports(&shipped, &extent));
    if let Err(difference) = compared {
        println!("{difference}");
        std::process::exit(1);
    }
}
