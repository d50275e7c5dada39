//! The tables that are printed: a line for each family, with both mean times and their ratio.

use crate::race::{Best, Times};
use crate::runs::{Run, Slow};
use crate::tiles::{self, Tile};

/// The greatest figure, and the family or the tile that it is from.
pub struct Greatest {
    pub figure: f64,
    pub name: String,
}

impl Greatest {
    const NONE: Greatest = Greatest {
        figure: 0.0,
        name: String::new(),
    };

    fn take(&mut self, other: Greatest) {
        if other.figure > self.figure {
            *self = other;
        }
    }
}

/// A line for each family of the mix and one for all. The answer is the sum of all, and the greatest ratio of a family.
pub fn print_mix(mix: &[Tile], best: &[Best]) -> (Times, Greatest) {
    println!("{}", head("ours us", "plain us"));
    let mut all = Times::default();
    let mut greatest = Greatest::NONE;
    for (number, (name, _)) in tiles::FAMILIES.iter().enumerate() {
        let times: Times = of_family(number, mix, best).collect();
        println!("{}", row(name, &times));
        all.add(&times);
        greatest.take(Greatest {
            figure: times.ratio(),
            name: name.to_string(),
        });
    }
    println!("{}", row("all", &all));
    (all, greatest)
}

/// All adversarial tables of a call. The answer is the slowest tile of all, in the mean time of the mix.
pub fn print_all_slow(run: &Run, mean: f64) -> Greatest {
    let mut slowest = Greatest::NONE;
    for slow in &run.slow {
        slowest.take(print_slow(slow, mean));
    }
    slowest
}

/// The same for adversarial families, with the slowest tile of each. The answer is the slowest of all.
fn print_slow(slow: &Slow, mean: f64) -> Greatest {
    println!("\nadversarial tiles; the last column is the slowest tile of the family in mean times of the mix, {mean:.1} us");
    println!("{}{:>9}", head("ours us", "plain us"), "slowest");
    let mut slowest = Greatest::NONE;
    for (number, family) in slow.families.iter().enumerate() {
        let best = || of_family(number, &slow.tiles, &slow.best);
        let of_tile = |best: Best| best.ours.as_secs_f64() * 1e6 / mean;
        let longest = greatest_tile(family.name, best().map(of_tile));
        println!(
            "{}{:>9.2}",
            row(family.name, &best().collect()),
            longest.figure
        );
        slowest.take(longest);
    }
    slowest
}

/// Two calls of ours beside each other on the same tiles.
pub struct Beside {
    /// Over all tiles.
    pub ratio: f64,
    /// The greatest ratio of a family, and of a tile.
    pub family: Greatest,
    pub tile: Greatest,
}

/// A line for each family, with the greatest ratio of a tile of it.
pub fn print_beside(names: &[&str], tiles: &[Tile], sheet: &[Best], carve: &[Best]) -> Beside {
    let both = sheet.iter().zip(carve).map(|(sheet, carve)| Best {
        ours: sheet.ours,
        other: carve.ours,
    });
    let both: Vec<Best> = both.collect();
    println!("{}{:>9}", head("sheet us", "carve us"), "greatest");
    let (mut greatest_family, mut tile) = (Greatest::NONE, Greatest::NONE);
    for (number, &name) in names.iter().enumerate() {
        let best = || of_family(number, tiles, &both);
        let times: Times = best().collect();
        let of_tile = |best: Best| best.ours.as_secs_f64() / best.other.as_secs_f64();
        let greatest = greatest_tile(name, best().map(of_tile));
        println!("{}{:>9.2}", row(name, &times), greatest.figure);
        tile.take(greatest);
        greatest_family.take(Greatest {
            figure: times.ratio(),
            name: name.to_string(),
        });
    }
    Beside {
        ratio: both.into_iter().collect::<Times>().ratio(),
        family: greatest_family,
        tile,
    }
}

/// The greatest of the figures of a family's tiles.
fn greatest_tile(family: &str, figures: impl Iterator<Item = f64>) -> Greatest {
    let mut greatest = Greatest::NONE;
    for (tile, figure) in figures.enumerate() {
        let name = format!("{family} {tile}");
        greatest.take(Greatest { figure, name });
    }
    greatest
}

fn of_family<'a>(
    number: usize,
    tiles: &'a [Tile],
    best: &'a [Best],
) -> impl Iterator<Item = Best> + 'a {
    let pairs = tiles.iter().zip(best);
    pairs
        .filter(move |(tile, _)| tile.family == number)
        .map(|(_, &best)| best)
}

fn head(ours: &str, other: &str) -> String {
    format!(
        "{:<18}{:>8}{ours:>12}{other:>12}{:>8}",
        "family", "tiles", "ratio"
    )
}

fn row(name: &str, times: &Times) -> String {
    let (ours, other) = times.means();
    format!(
        "{name:<18}{:>8}{ours:>12.1}{other:>12.1}{:>8.2}",
        times.tiles,
        times.ratio()
    )
}
