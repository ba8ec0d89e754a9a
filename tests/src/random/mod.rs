//! Random cases, each made from one seed alone.

pub mod cases;
pub mod consoles;
pub mod damage;
pub mod draft;
pub mod expressions;
pub mod listings;
pub mod messages;
pub mod parsing;
pub mod prng;
pub mod tables;
