//! All programs stop reading in time: one byte more than the longest input is read, so that endless input ends.

use std::io::{self, Read, Write};

use second::drain::drain;
use second::follow::follow;
use second::lakes_text::print_lakes;

type Program = fn(&mut dyn Read, &mut dyn Write) -> io::Result<()>;

/// Each program, and the most bytes that it reads.
const PROGRAMS: [(Program, u64); 3] = [
    (|input, output| drain(input, output), 28_689),
    (|input, output| print_lakes(input, output), 28_689),
    (|input, output| follow(input, output), 8_201),
];

#[test]
fn endless_input_ends() {
    for (program, _) in PROGRAMS {
        let mut printed = Vec::new();
        program(&mut io::repeat(0), &mut printed).unwrap();
        assert_eq!(printed, b"refused 2 0\n");
    }
}

#[test]
fn no_more_is_read_than_is_needed() {
    for (program, most) in PROGRAMS {
        let mut input = io::repeat(0).take(100_000);
        program(&mut input, &mut io::sink()).unwrap();
        assert_eq!(100_000 - input.limit(), most);
    }
}
