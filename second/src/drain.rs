//! The printing program's work: one ground record in, its text out.

use std::io::{self, Read, Write};

use crate::program;
use crate::record;
use crate::text::text;

/// Reads a record and prints its text.
pub fn drain(input: impl Read, output: impl Write) -> io::Result<()> {
    program::run(input, output, record::LARGEST, text)
}
