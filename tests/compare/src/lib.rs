//! The comparison harness: generated records, the library under test, the second program,
//! and every byte that either of them leaves; and the programs' texts on generated inputs.

pub mod arguments;
pub mod asked;
pub mod calls;
pub mod cases;
pub mod chance;
pub mod comparison;
pub mod damage;
pub mod demand3;
pub mod diagonal_families;
pub mod difference;
pub mod exhaustive;
pub mod families;
pub mod follow_run;
pub mod kinds;
pub mod lake_families;
pub mod lake_laws;
pub mod lending;
pub mod library;
#[cfg(feature = "linked")]
mod linked;
pub mod manner_laws;
pub mod mutants;
pub mod outlets;
#[cfg(not(feature = "linked"))]
mod piped;
pub mod program_run;
pub mod questions;
pub mod record_runs;
pub mod reliefs;
pub mod sheet_families;
pub mod tally;
pub mod worked;
