//! Prints the proved reader's times beside those of the other contenders; docs/SPEED.md tells what they mean.

use reader_bench::contenders::ROUNDS;
use reader_bench::sections;

fn main() {
    println!("Proved: the proved reader, by its static library. Rust: the independent implementation of tests/, written for reading.");
    println!("Fast: an interpreter of the same tables in safe Rust, written for speed (bench/src/fast). Each ratio is the proved reader's time divided by the time to its left.");
    println!("All in release for this processor; they take turns, and of each the least of {ROUNDS} rounds is shown.");
    sections::runs();
    sections::clearing();
    sections::checks();
    sections::listings();
    sections::growth();
    sections::plain_grammars();
}
