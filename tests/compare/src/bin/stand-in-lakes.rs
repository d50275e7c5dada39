//! The second program's `lakes`, built beside the harness so that its lakes mode can be tried.

use std::io;

fn main() -> io::Result<()> {
    second::lakes_text::print_lakes(io::stdin().lock(), io::stdout().lock())
}
