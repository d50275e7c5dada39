//! The benchmark: each of our calls beside its plain version, on the mix of tiles and on adversarial ones, and sheet flow beside carving.

use std::env;
use std::process::ExitCode;

use bench::adversarial::{self, Family};
use bench::race::{Race, Times};
use bench::runs::Run;
use bench::tables::{print_all_slow, print_beside, print_mix, Beside, Greatest};
use bench::tiles::{tile, Tile};
use bench::{slow_diagonals, slow_lakes, slow_sheets, tiles};
use compare::asked::{CARVE, SHEET};
use compare::library::under_test;

/// How many tiles of the mix a run takes when nothing else is asked for.
const DEFAULT_TILES: u64 = 10_000;

/// How often each tile of the mix is run: its time is the least of these.
const ROUNDS: usize = 7;

/// So many times as often the adversarial tiles are run: one tile with bad luck in all of its runs would decide which is the slowest.
const OFTENER: usize = 3;

const SEED: u64 = 1;

fn main() -> ExitCode {
    let count = match env::args().nth(1).map(|word| word.parse()) {
        None => DEFAULT_TILES,
        Some(Ok(count)) if count > 0 => count,
        Some(_) => {
            eprintln!("usage: bench [TILES]");
            return ExitCode::from(2);
        }
    };
    println!("ours are {}", under_test().description);
    println!(
        "{count} tiles of 64 by 64, seed {SEED}; each time is the least of {ROUNDS} runs or more"
    );
    let mix: Vec<Tile> = (0..count).map(|number| tile(SEED, number)).collect();
    let mut runs = Runs::new(&mix);
    runs.measure(&mix);
    runs.print(&mix);
    ExitCode::SUCCESS
}

/// All that is measured.
struct Runs {
    network: Run,
    lakes: Run,
    by_8: InBothManners,
    by_4: InBothManners,
}

/// The call that is told neighbours and manner, in both manners on the same tiles.
struct InBothManners {
    carve: Run,
    sheet: Run,
}

impl InBothManners {
    /// The plateaus, made to be slow for sheets, come first of the adversarial families.
    fn new(neighbours: u32, mix: &[Tile], families: &[&'static [Family]]) -> InBothManners {
        let families = [&[&slow_sheets::FAMILIES[..]], families].concat();
        let run = |manner| Run::new(Race::network_by(neighbours, manner), mix, &families);
        InBothManners {
            carve: run(CARVE),
            sheet: run(SHEET),
        }
    }
}

impl Runs {
    fn new(mix: &[Tile]) -> Runs {
        let common = &adversarial::FAMILIES[..];
        Runs {
            network: Run::new(Race::network(), mix, &[common]),
            lakes: Run::new(Race::lakes(), mix, &[&slow_lakes::FAMILIES, common]),
            by_8: InBothManners::new(8, mix, &[&slow_diagonals::FAMILIES, common]),
            by_4: InBothManners::new(4, mix, &[common]),
        }
    }

    /// The least times of every tile. All others are run between two runs of the same one, so that its runs are far apart, and the
    /// calls take turns, so that they meet the machine in the same state.
    fn measure(&mut self, mix: &[Tile]) {
        let part = mix.len().div_ceil(OFTENER);
        for _ in 0..ROUNDS {
            for (number, tiles) in mix.chunks(part).enumerate() {
                for run in [
                    &mut self.network,
                    &mut self.lakes,
                    &mut self.by_8.carve,
                    &mut self.by_8.sheet,
                    &mut self.by_4.carve,
                    &mut self.by_4.sheet,
                ] {
                    run.round(number * part, tiles);
                }
            }
        }
    }

    /// The tables of each call and its figures, a line each. The last line is the ratio of the network over the mix.
    fn print(&self, mix: &[Tile]) {
        let network = print_network(mix, &self.network);
        let mean = network.means().0;
        print_lakes(mix, &self.lakes, mean);
        let by_8 = print_by_8(mix, &self.by_8.carve);
        let by_4 = print_by_4(mix, &self.by_4.carve);
        print_sheets(8, mix, &self.by_8);
        print_sheets(4, mix, &self.by_4);
        println!("\nby 4 to plain: {:.3}", by_4.ratio());
        println!("by 4 to network: {:.3}", by_4.means().0 / mean);
        println!("by 8 to network: {:.3}", by_8.means().0 / mean);
        println!("by 8 to plain: {:.3}", by_8.ratio());
        println!("ratio {:.3}", network.ratio());
    }
}

fn print_network(mix: &[Tile], run: &Run) -> Times {
    println!("\nthe network");
    let (times, family) = print_mix(mix, &run.mix_best);
    println!("greatest ratio of a family: {}", shown(&family));
    let slowest = print_all_slow(run, times.means().0);
    println!(
        "slowest adversarial tile: {:.2} times the mean ({})",
        slowest.figure, slowest.name
    );
    times
}

/// The mean time of the network is told.
fn print_lakes(mix: &[Tile], run: &Run, network: f64) {
    println!("\nthe lakes");
    let (times, family) = print_mix(mix, &run.mix_best);
    println!("greatest lakes ratio of a family: {}", shown(&family));
    let mean = times.means().0;
    let slowest = print_all_slow(run, mean);
    println!(
        "slowest lakes tile: {:.3} ms ({})",
        slowest.figure * mean / 1_000.0,
        slowest.name
    );
    println!("lakes to network: {:.3}", mean / network);
    println!("lakes to plain: {:.3}", times.ratio());
}

fn print_by_8(mix: &[Tile], run: &Run) -> Times {
    println!("\nthe network by 8 neighbours");
    let (times, family) = print_mix(mix, &run.mix_best);
    println!("greatest ratio of a family by 8: {}", shown(&family));
    let slowest = print_all_slow(run, times.means().0);
    println!(
        "slowest tile by 8: {:.2} times its mean ({})",
        slowest.figure, slowest.name
    );
    times
}

/// Its adversarial tiles have the console's table, or stand beside those of sheets.
fn print_by_4(mix: &[Tile], run: &Run) -> Times {
    println!("\nthe same call, told 4");
    let (times, family) = print_mix(mix, &run.mix_best);
    println!("greatest ratio of a family by 4: {}", shown(&family));
    times
}

/// Sheet flow over these neighbours, beside the plain version's and beside carving.
fn print_sheets(neighbours: u32, mix: &[Tile], runs: &InBothManners) {
    println!("\nsheet flow by {neighbours} neighbours");
    let (times, family) = print_mix(mix, &runs.sheet.mix_best);
    println!(
        "greatest ratio of a family as a sheet by {neighbours}: {}",
        shown(&family)
    );
    let slowest = print_all_slow(&runs.sheet, times.means().0);
    println!(
        "slowest tile as a sheet by {neighbours}: {:.2} times its mean ({})",
        slowest.figure, slowest.name
    );
    println!("sheet by {neighbours} to plain: {:.3}", times.ratio());
    let beside = print_beside_carving(mix, runs);
    let families = beside.iter().map(|table| &table.family);
    let greatest = families.max_by(|one, other| one.figure.total_cmp(&other.figure));
    println!("sheet to carve by {neighbours}: {:.3}", beside[0].ratio);
    println!(
        "sheet to carve in a family by {neighbours}: {}",
        shown(greatest.expect("there are families"))
    );
    println!(
        "sheet to carve on a plateau by {neighbours}: {}",
        shown(&beside[1].tile)
    );
}

/// The mix, then the plateaus, then all other adversarial tiles.
fn print_beside_carving(mix: &[Tile], runs: &InBothManners) -> Vec<Beside> {
    println!("\nthe mix beside carving; the last column is the greatest ratio of a tile");
    let names = tiles::FAMILIES.map(|(name, _)| name);
    let sheet = &runs.sheet.mix_best;
    let mut tables = vec![print_beside(&names, mix, sheet, &runs.carve.mix_best)];
    for (number, (sheet, carve)) in runs.sheet.slow.iter().zip(&runs.carve.slow).enumerate() {
        let what = if number == 0 {
            "plateaus"
        } else {
            "adversarial tiles"
        };
        println!("\n{what} beside carving");
        let names: Vec<&str> = sheet.families.iter().map(|family| family.name).collect();
        let table = print_beside(&names, &sheet.tiles, &sheet.best, &carve.best);
        tables.push(table);
    }
    tables
}

fn shown(greatest: &Greatest) -> String {
    format!("{:.3} ({})", greatest.figure, greatest.name)
}
