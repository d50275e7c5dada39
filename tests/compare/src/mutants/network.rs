//! Mutants whose network is wrong: one fault in one of rules 1 to 10.

use std::cmp::Reverse;
use std::collections::HashSet;

use second::basins::{self, Basins};
use second::carving::{self, Outflow};
use second::first_receivers::{first_receivers, steepness};
use second::flow;
use second::ground::{Basin, Cell, Ground};
use second::neighbours::Neighbours;
use second::passes::{self, pair, Crossing};

use super::{Mutant, NetworkCall};

pub const MUTANTS: &[Mutant<NetworkCall>] = mutants![
    "rule 1: the greatest number of equally steep ones" =>
        with!(first_receivers: greatest_of_equally_steep),
    "rule 1: an equally high neighbour receives too" => with!(first_receivers: equal_receives_too),
    "rule 1: an outlet with a lower neighbour has a receiver" =>
        with!(first_receivers: |neighbours, ground| {
            first_receivers(neighbours, &first_outlet_only(ground))
        }),
    "rule 1: heights compared as unsigned numbers" => with!(first_receivers: unsigned_heights),
    "rule 1: the last cell of the row above is a neighbour" => with!(first_receivers: wrapped_rows),
    "rule 2: basins numbered as their cells are met" => with!(basins: numbered_as_met),
    "rule 3: the height of the lesser cell" => with!(crossings: height_of_lesser),
    "rule 3: the greater lesser cell first" => with!(passes: |all, basins| {
        least_by(all, basins, |one| (one.height, Reverse(one.lesser), one.greater))
    }),
    "rule 3: the greater greater cell first" => with!(passes: |all, basins| {
        least_by(all, basins, |one| (one.height, one.lesser, Reverse(one.greater)))
    }),
    "rule 3: the highest crossing is the pass" => with!(passes: highest),
    "rule 4: outlet basins are not joined" => with!(
        chosen_passes: |passes, basins, ground| {
            passes::chosen_passes(passes, basins, &first_outlet_only(ground))
        },
        outflows: |chosen, basins, ground| {
            carving::outflows(chosen, basins, &first_outlet_only(ground))
        },
    ),
    "rule 4: the highest passes first" => with!(chosen_passes: highest_first),
    "rule 5: each basin over its own lowest pass" => with!(
        chosen_passes: |passes, _, _| passes.to_vec(),
        outflows: own_lowest,
        drainage: drainage_on_rings,
    ),
    "rule 6: nothing reversed, only the near cell set" => with!(carve: |first, outflows| {
        near_set(carving::carve(first, &[]), outflows, |one| one.far)
    }),
    "rule 6: near cell not joined to far cell" => with!(carve: |first, outflows| {
        near_set(carving::carve(first, outflows), outflows, |one| one.near)
    }),
    "rule 6: each cell its own receiver" =>
        with!(carve: |first, _| (0..first.len()).map(Cell::at).collect()),
    "rule 7: the receiver's height in place of its level" => with!(levels: receivers_height),
    "rule 7: levels cut to 16 bits" => with!(levels: |receivers, order, ground| {
        let levels = flow::levels(receivers, order, ground).into_iter();
        levels.map(|level| i32::from(level as i16)).collect()
    }),
    "rules 7 and 9: zeros for levels and drainage" => with!(
        levels: |receivers, _, _| vec![0; receivers.len()],
        drainage: |receivers, _| vec![0; receivers.len()],
    ),
    "rule 8: greater numbers first" => with!(order: greater_first),
    "rule 8: breadth first" => with!(order: breadth_first),
    "rule 9: sums cut to 16 bits" => with!(drainage: |receivers, ground| {
        let drainage = flow::drainage(receivers, ground).into_iter();
        drainage.map(|sum| sum & 0xFFFF).collect()
    }),
    "rule 9: the outlets' own water left out" => with!(drainage: without_outlets_water),
    "rule 10: document 01's, a meadow is wet" => with!(wet: |receivers, levels, ground| {
        let as_receiver = |cell: Cell| {
            levels[cell.index()] == levels[receivers[cell.index()].index()]
        };
        ground.cells().map(|cell| u8::from(as_receiver(cell) && !ground.is_outlet(cell))).collect()
    }),
    "rule 10: wet where the level is at least the height" => with!(wet: |_, levels, ground| {
        let both = levels.iter().zip(&ground.heights);
        both.map(|(level, height)| u8::from(level >= height)).collect()
    }),
    "rule 10: the level above the receiver's height" => with!(wet: |receivers, levels, ground| {
        let both = levels.iter().zip(receivers);
        both.map(|(&level, &receiver)| u8::from(level > ground.height(receiver))).collect()
    }),
    "rule 10: levels and heights compared as unsigned numbers" => with!(wet: |_, levels, ground| {
        let both = levels.iter().zip(&ground.heights);
        both.map(|(&level, &height)| u8::from(level as u32 > height as u32)).collect()
    }),
];

fn greatest_of_equally_steep(neighbours: Neighbours, ground: &Ground) -> Vec<Option<Cell>> {
    let as_steep = |cell, first| {
        let equal = |other: &Cell| {
            ground.height(*other) < ground.height(cell)
                && steepness(ground, cell, *other) == steepness(ground, cell, first)
        };
        neighbours.of(cell, ground.size).filter(equal).last()
    };
    let right = ground.cells().zip(first_receivers(neighbours, ground));
    right.map(|(cell, first)| as_steep(cell, first?)).collect()
}

/// An equally high neighbour only counts with a lesser number, or the way would never end.
fn equal_receives_too(neighbours: Neighbours, ground: &Ground) -> Vec<Option<Cell>> {
    let mut found = first_receivers(neighbours, ground);
    for (cell, first) in ground.cells().zip(&mut found) {
        let equal = |other: &Cell| *other < cell && ground.height(*other) == ground.height(cell);
        if first.is_none() && !ground.is_outlet(cell) {
            *first = neighbours.of(cell, ground.size).find(equal);
        }
    }
    found
}

/// Without its sign, any negative number is greater than all others.
fn unsigned_heights(neighbours: Neighbours, ground: &Ground) -> Vec<Option<Cell>> {
    let mut unsigned = ground.clone();
    for height in unsigned.heights.iter_mut().filter(|height| **height < 0) {
        *height += 32_000_000;
    }
    first_receivers(neighbours, &unsigned)
}

/// In the first column the number before is taken for a neighbour, though it is in another row.
fn wrapped_rows(neighbours: Neighbours, ground: &Ground) -> Vec<Option<Cell>> {
    let mut found = first_receivers(neighbours, ground);
    for row in 1..ground.size.height {
        let cell = Cell::at(row * ground.size.width);
        let before = Cell(cell.0 - 1);
        let lowest = found[cell.index()].unwrap_or(cell);
        if !ground.is_outlet(cell) && ground.height(before) < ground.height(lowest) {
            found[cell.index()] = Some(before);
        }
    }
    found
}

fn numbered_as_met(first_receivers: &[Option<Cell>]) -> Basins {
    let right = basins::basins(first_receivers);
    let mut met: Vec<Basin> = Vec::new();
    for &basin in &right.of_cells {
        if !met.contains(&basin) {
            met.push(basin);
        }
    }
    let number = |old: &Basin| Basin::at(met.iter().position(|basin| basin == old).unwrap());
    Basins {
        of_cells: right.of_cells.iter().map(number).collect(),
        singular_cells: met.iter().map(|&old| right.singular_cell(old)).collect(),
    }
}

fn height_of_lesser(neighbours: Neighbours, ground: &Ground, basins: &Basins) -> Vec<Crossing> {
    let mut crossings = passes::crossings(neighbours, ground, basins);
    for crossing in &mut crossings {
        crossing.height = ground.height(crossing.lesser);
    }
    crossings
}

/// Passes, with crossings compared by another key.
fn least_by<K: Ord>(all: &[Crossing], basins: &Basins, key: fn(&Crossing) -> K) -> Vec<Crossing> {
    let mut sorted = all.to_vec();
    sorted.sort_by_key(key);
    let mut kept = HashSet::new();
    sorted.retain(|&crossing| {
        let (one, other) = pair(crossing, basins);
        kept.insert((one.0, other.0))
    });
    sorted
}

fn highest(crossings: &[Crossing], basins: &Basins) -> Vec<Crossing> {
    let mut highest = least_by(crossings, basins, |&one| Reverse(one));
    highest.sort();
    highest
}

fn highest_first(passes: &[Crossing], basins: &Basins, ground: &Ground) -> Vec<Crossing> {
    let descending: Vec<Crossing> = passes.iter().rev().copied().collect();
    passes::chosen_passes(&descending, basins, ground)
}

/// The tile as if it had its first outlet only.
fn first_outlet_only(ground: &Ground) -> Ground {
    let mut only = ground.clone();
    only.marks.fill(0);
    let first = ground.cells().find(|&cell| ground.is_outlet(cell));
    only.marks[first.map_or(0, Cell::index)] = 1;
    only
}

fn own_lowest(passes: &[Crossing], basins: &Basins, ground: &Ground) -> Vec<Option<Outflow>> {
    let mut outflows = vec![None; basins.count()];
    for pass in passes {
        for (near, far) in [(pass.lesser, pass.greater), (pass.greater, pass.lesser)] {
            let basin = basins.of(near);
            let inner = !ground.is_outlet(basins.singular_cell(basin));
            if inner && outflows[basin.index()].is_none() {
                outflows[basin.index()] = Some(Outflow { near, far });
            }
        }
    }
    outflows
}

/// The right sums, with a walk that ends on a ring too, however much it adds there.
pub fn drainage_on_rings(receivers: &[Cell], ground: &Ground) -> Vec<u32> {
    let mut drainage = vec![0_u32; receivers.len()];
    for start in ground.cells() {
        let mut cell = start;
        for _ in 0..receivers.len() {
            let water = u32::from(ground.water[start.index()]);
            drainage[cell.index()] = drainage[cell.index()].wrapping_add(water);
            if receivers[cell.index()] == cell {
                break;
            }
            cell = receivers[cell.index()];
        }
    }
    drainage
}

/// Receivers with those of the near cells set to one cell of their outflow.
fn near_set(
    mut receivers: Vec<Cell>,
    outflows: &[Option<Outflow>],
    receiver: fn(&Outflow) -> Cell,
) -> Vec<Cell> {
    for outflow in outflows.iter().flatten() {
        receivers[outflow.near.index()] = receiver(outflow);
    }
    receivers
}

fn receivers_height(receivers: &[Cell], _: &[Cell], ground: &Ground) -> Vec<i32> {
    let height = |cell| {
        ground
            .height(cell)
            .max(ground.height(receivers[cell.index()]))
    };
    ground.cells().map(height).collect()
}

/// The right order of the tile with its numbers the other way round.
fn greater_first(receivers: &[Cell]) -> Vec<Cell> {
    let flip = |cell: &Cell| Cell::at(receivers.len() - 1 - cell.index());
    let flipped: Vec<Cell> = receivers.iter().rev().map(flip).collect();
    flow::order(&flipped).iter().map(flip).collect()
}

/// All outlets, then all cells one step above them, and so on.
fn breadth_first(receivers: &[Cell]) -> Vec<Cell> {
    let mut order = flow::order(receivers);
    let mut steps = vec![0; receivers.len()];
    for cell in &order {
        let receiver = receivers[cell.index()];
        steps[cell.index()] = steps[receiver.index()] + usize::from(receiver != *cell);
    }
    order.sort_by_key(|cell| steps[cell.index()]);
    order
}

fn without_outlets_water(receivers: &[Cell], ground: &Ground) -> Vec<u32> {
    let mut dry_outlets = ground.clone();
    for cell in ground.cells().filter(|&cell| ground.is_outlet(cell)) {
        dry_outlets.water[cell.index()] = 0;
    }
    flow::drainage(receivers, &dry_outlets)
}
