//! The second program: document 01, as document 02 changes it, followed word for word, in plain Rust.
//!
//! It is written from these two alone and shares nothing with the proved library,
//! so that a fault in one of the two shows when they are compared.
//! Plainness comes before speed. The stages are public, one file for each,
//! in the order of the rules, so that the comparison can exchange one for a wrong one.

pub mod basins;
pub mod call;
pub mod carving;
pub mod drain;
pub mod first_receivers;
pub mod flow;
pub mod follow;
pub mod ground;
pub mod groups;
pub mod lake_list;
pub mod lakes;
pub mod lakes_text;
pub mod manner;
pub mod neighbours;
pub mod network;
pub mod network_record;
pub mod passes;
pub mod program;
pub mod record;
pub mod refusal;
pub mod sheet;
pub mod text;
pub mod trace;
pub mod vectors;

pub use call::{call, network_by_call};
pub use lake_list::lakes_call;
