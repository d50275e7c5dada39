//! The second program's `follow`, built beside the harness so that its follow mode can be tried.

use std::io;

fn main() -> io::Result<()> {
    second::follow::follow(io::stdin().lock(), io::stdout().lock())
}
