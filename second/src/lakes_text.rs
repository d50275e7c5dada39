//! The program `lakes`: one ground record in, the text of its lakes out.

use std::fmt::Write as _;
use std::io::{self, Read, Write};

use crate::lakes::{lakes, listed, Lake};
use crate::program;
use crate::record;
use crate::text::{judged, refused};

/// What `lakes` prints for this input, refused or not. Each line ends in one newline.
pub fn text(input: &[u8]) -> String {
    match judged(input).and_then(|ground| lakes(&ground)) {
        Ok(outermost) => list_text(&listed(&outermost)),
        Err(refusal) => refused(refusal),
    }
}

/// How many lakes there are, then a line for each: level, number of cells, volume, least cell.
fn list_text(list: &[&Lake]) -> String {
    let mut text = format!("lakes {}\n", list.len());
    for lake in list {
        let (level, cells) = (lake.level, lake.cells.len());
        let (volume, least) = (lake.volume, lake.least().0);
        writeln!(text, "{level} {cells} {volume} {least}").expect("a string takes any text");
    }
    text
}

/// Reads a record and prints the text of its lakes.
pub fn print_lakes(input: impl Read, output: impl Write) -> io::Result<()> {
    program::run(input, output, record::LARGEST, text)
}
