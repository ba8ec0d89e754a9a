//! Tables that nest as deep as 1,024 nodes allow, and others less deep; and the
//! exported functions called with them on a stack of a few kilobytes.

pub mod nests;
#[cfg(feature = "library")]
pub mod on_stack;
#[cfg(feature = "library")]
pub mod stack;
pub mod tables;
pub mod trees;
#[cfg(feature = "library")]
pub mod trial;
