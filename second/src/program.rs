//! A program's work: an input in, its text out.

use std::io::{self, Read, Write};

/// Reads one byte more than the longest input and no further, so that endless input ends.
pub fn run(
    input: impl Read,
    mut output: impl Write,
    longest: usize,
    text: fn(&[u8]) -> String,
) -> io::Result<()> {
    let mut bytes = Vec::new();
    input.take(longest as u64 + 1).read_to_end(&mut bytes)?;
    output.write_all(text(&bytes).as_bytes())?;
    output.flush()
}
