//! Writes tiles of every family to standard output, for programs that are not in Rust: some of the mix, then all adversarial ones.
//! Each is a line with its name, the length of its record in 4 little-endian bytes, and the record.

use std::io::{self, BufWriter, Write};

use bench::tiles::{tile, Tile};
use bench::{adversarial, slow_diagonals, slow_lakes, slow_sheets, tiles};

/// So many tiles of the mix: six of the rarest families each.
const OF_THE_MIX: u64 = 60;

fn main() -> io::Result<()> {
    let mut out = BufWriter::new(io::stdout().lock());
    for number in 0..OF_THE_MIX {
        let tile = tile(1, number);
        write(
            &mut out,
            tiles::FAMILIES[tile.family].0,
            number as usize,
            &tile,
        )?;
    }
    for families in [
        &adversarial::FAMILIES[..],
        &slow_lakes::FAMILIES,
        &slow_diagonals::FAMILIES,
        &slow_sheets::FAMILIES,
    ] {
        for (number, tile) in adversarial::tiles_of(families).iter().enumerate() {
            let of_family = number % adversarial::TILES_OF_EACH;
            write(&mut out, families[tile.family].name, of_family, tile)?;
        }
    }
    out.flush()
}

fn write(out: &mut impl Write, family: &str, number: usize, tile: &Tile) -> io::Result<()> {
    writeln!(out, "{family} {number}")?;
    out.write_all(&(tile.record.len() as u32).to_le_bytes())?;
    out.write_all(&tile.record)
}
