//! `second-drain`: the second program's `drain`. A ground record on standard input, text out.

use std::io;

fn main() -> io::Result<()> {
    second::drain::drain(io::stdin().lock(), io::stdout().lock())
}
