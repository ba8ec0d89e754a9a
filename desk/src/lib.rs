//! The grammar author's desk: the proved verdict on a listing (`verdict`), and
//! beside it advice in words (`advice`), of which nothing is proved. Where the
//! two should ever disagree the verdict stands, and there is no advice.

pub mod advice;
pub mod field;
pub mod judgement;
pub mod names;
pub mod page;
pub mod types;
pub mod uses;
pub mod verdict;
