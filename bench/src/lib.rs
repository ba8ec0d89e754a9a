//! Styrmflo: what the benchmark runs, and how it takes times.

#![forbid(unsafe_code)]

pub mod agreement;
pub mod bound;
pub mod contenders;
pub mod entangled;
pub mod fast;
pub mod grammars;
pub mod lpeg;
pub mod print;
pub mod runs;
pub mod sections;
