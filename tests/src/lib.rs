//! Styrmflo, reader of message grammars for lift displays: a second, plain
//! reading of document 01 and the means to compare it with the proved reader.

pub mod arguments;
pub mod bound;
pub mod boundary;
pub mod compare;
pub mod deep;
pub mod exported;
#[cfg(feature = "library")]
pub mod library;
pub mod numbers;
pub mod program;
pub mod random;
pub mod reference;
pub mod shipped;
pub mod subject;
pub mod vectors;
