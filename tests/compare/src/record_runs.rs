//! The inputs of the programs that read a ground record, `drain` and `lakes`.

use second::record::LARGEST;
use second::{lakes_text, text};

use crate::cases::{Cases, LAKES as LAKES_CASES, NETWORK as NETWORK_CASES};
use crate::chance::Chance;
use crate::program_run::Task;

/// How many inputs a run gives such a program when nothing else is asked for.
pub const DEFAULT_INPUTS: u64 = 1_000;

/// What `drain` is given, and what it should print.
pub const DRAIN: Task = Task {
    input: |seed, index| input(&NETWORK_CASES, seed, index),
    text: text::text,
};

/// What `lakes` is given, and what it should print.
pub const LAKES: Task = Task {
    input: |seed, index| input(&LAKES_CASES, seed, index),
    text: lakes_text::text,
};

/// A generated record, and once in a while one that is longer than any record.
fn input(cases: &Cases, seed: u64, index: u64) -> (&'static str, Vec<u8>) {
    let specimen = cases.specimen(seed, index);
    if index % 16 != 15 {
        return (specimen.family, specimen.record);
    }
    let mut chance = Chance::of_case(seed, index);
    let length = LARGEST + chance.below(3);
    let mut long = vec![0; length];
    // Zeros name the width 0, refused with 1 unless the input is too long to be judged.
    if chance.one_in(2) {
        let start = length - specimen.record.len().min(length);
        long.splice(start.., specimen.record);
    }
    ("about the longest", long)
}
