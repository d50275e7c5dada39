//! The parts: the listing of an archive as functions and jumps, the tables that jumps go by, and the judgement over them.

pub mod judgement;
pub mod listing;
pub mod tables;
