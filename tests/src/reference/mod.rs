//! Document 01, read once more: recursive, direct, with no eye to speed.

pub mod check;
pub mod console;
mod expressions;
pub mod listing;
pub mod run;
pub mod table;
pub mod text;
pub mod types;
