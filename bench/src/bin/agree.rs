//! Compares the fast contender with the independent implementation: stored vectors, words as kinds, random and damaged tables with messages, budgets and work areas; and
//! both it and the proved reader on tables that write and fail a lot, on chains at the greatest depth with every budget, and on what is measured. Every answer and all work
//! memory is compared.
//! Arguments: how many cases of each of the two random sorts, the first seed.

use reader_bench::agreement;
use reader_tests::arguments::asked;

fn main() {
    if let Err(difference) = agreement::all(asked(0, 20_000), asked(1, 1)) {
        println!("{difference}");
        std::process::exit(1);
    }
}
