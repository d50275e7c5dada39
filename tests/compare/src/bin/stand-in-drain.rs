//! The second program's `drain`, built beside the harness so that its drain mode can be tried.

use std::io;

fn main() -> io::Result<()> {
    second::drain::drain(io::stdin().lock(), io::stdout().lock())
}
