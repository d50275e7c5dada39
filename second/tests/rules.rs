//! Rules 1 to 5 read once more, as slowly as they are written, on small tiles full of ties, with 4 and
//! with 8 neighbours. Where the second program takes a quicker way, it has to come to the same.

mod small_tiles;

use second::basins::{basins, Basins};
use second::carving::{outflows, Outflow};
use second::first_receivers::first_receivers;
use second::ground::{Basin, Cell, Ground, Size};
use second::neighbours::Neighbours;
use second::passes::{chosen_passes, crossings, passes, Crossing};
use small_tiles::small_tiles;

/// Each of these tiles with 4 neighbours, then with 8.
fn asked() -> impl Iterator<Item = (Neighbours, Ground)> {
    let with_both = |ground: Ground| Neighbours::BOTH.map(|asked| (asked, ground.clone()));
    small_tiles().into_iter().flat_map(with_both)
}

/// Basins, passes and chosen passes of a tile.
fn stages(neighbours: Neighbours, ground: &Ground) -> (Basins, Vec<Crossing>, Vec<Crossing>) {
    let basins = basins(&first_receivers(neighbours, ground));
    let passes = passes(&crossings(neighbours, ground, &basins), &basins);
    let chosen = chosen_passes(&passes, &basins, ground);
    (basins, passes, chosen)
}

fn is_outlet_basin(ground: &Ground, basins: &Basins, basin: Basin) -> bool {
    ground.is_outlet(basins.singular_cell(basin))
}

/// All basins that these passes lead to from one, with all outlet basins joined.
fn reached(from: Basin, along: &[Crossing], ground: &Ground, basins: &Basins) -> Vec<Basin> {
    let mut reached = vec![from];
    loop {
        let before = reached.len();
        let outlets: Vec<Basin> = basins
            .all()
            .filter(|&basin| is_outlet_basin(ground, basins, basin))
            .collect();
        let joined = along
            .iter()
            .map(|pass| vec![basins.of(pass.lesser), basins.of(pass.greater)]);
        for group in joined.chain([outlets]) {
            if group.iter().any(|basin| reached.contains(basin)) {
                reached.extend(group);
            }
        }
        reached.sort();
        reached.dedup();
        if reached.len() == before {
            return reached;
        }
    }
}

/// How far apart two cells are in rows and in columns.
fn apart(one: Cell, other: Cell, size: Size) -> (usize, usize) {
    let (row, column) = size.row_and_column(one);
    let (other_row, other_column) = size.row_and_column(other);
    (row.abs_diff(other_row), column.abs_diff(other_column))
}

/// Neighbours share a side; of 8, some share a corner only.
fn are_neighbours(neighbours: Neighbours, one: Cell, other: Cell, size: Size) -> bool {
    match apart(one, other, size) {
        (0, 1) | (1, 0) => true,
        (1, 1) => neighbours == Neighbours::Eight,
        _ => false,
    }
}

#[test]
fn neighbours_share_a_side_or_a_corner() {
    for (neighbours, ground) in asked() {
        for cell in ground.cells() {
            let wanted: Vec<Cell> = ground
                .cells()
                .filter(|&other| are_neighbours(neighbours, cell, other, ground.size))
                .collect();
            let found: Vec<Cell> = neighbours.of(cell, ground.size).collect();
            assert_eq!(found, wanted, "cell {} of {:?}", cell.0, ground.size);
        }
    }
}

/// Whether it is steeper from a cell to one neighbour than to another, case by case.
fn is_steeper(ground: &Ground, cell: Cell, one: Cell, other: Cell) -> bool {
    let drop = |to: Cell| i128::from(ground.height(cell)) - i128::from(ground.height(to));
    let is_diagonal = |to: Cell| apart(cell, to, ground.size) == (1, 1);
    match (is_diagonal(one), is_diagonal(other)) {
        (true, false) => drop(one) * drop(one) > 2 * drop(other) * drop(other),
        (false, true) => 2 * drop(one) * drop(one) > drop(other) * drop(other),
        _ => drop(one) > drop(other),
    }
}

#[test]
fn no_lower_neighbour_is_steeper_than_the_first_receiver() {
    for (neighbours, ground) in asked() {
        let found = first_receivers(neighbours, &ground);
        for (cell, &receiver) in ground.cells().zip(&found) {
            let is_lower = |other: &Cell| ground.height(*other) < ground.height(cell);
            let lower: Vec<Cell> = neighbours
                .of(cell, ground.size)
                .filter(|other| is_lower(other) && !ground.is_outlet(cell))
                .collect();
            let is_steepest = |one: &&Cell| {
                let steeper = |&other: &Cell| is_steeper(&ground, cell, other, **one);
                !lower.iter().any(steeper)
            };
            assert_eq!(receiver.as_ref(), lower.iter().find(is_steepest));
        }
    }
}

#[test]
fn crossings_are_all_neighbours_in_different_basins() {
    for (neighbours, ground) in asked() {
        let basins = basins(&first_receivers(neighbours, &ground));
        let mut wanted = Vec::new();
        for lesser in ground.cells() {
            for greater in ground.cells().filter(|&greater| lesser < greater) {
                let touch = are_neighbours(neighbours, lesser, greater, ground.size);
                if touch && basins.of(lesser) != basins.of(greater) {
                    let height = ground.height(lesser).max(ground.height(greater));
                    wanted.push(Crossing {
                        height,
                        lesser,
                        greater,
                    });
                }
            }
        }
        assert_eq!(crossings(neighbours, &ground, &basins), wanted);
    }
}

#[test]
fn a_pass_is_the_least_crossing_of_its_two_basins() {
    for (neighbours, ground) in asked() {
        let (basins, passes, _) = stages(neighbours, &ground);
        for crossing in crossings(neighbours, &ground, &basins) {
            let pair = second::passes::pair(crossing, &basins);
            let of_pair = |pass: &&Crossing| second::passes::pair(**pass, &basins) == pair;
            let found: Vec<&Crossing> = passes.iter().filter(of_pair).collect();
            assert_eq!(found.len(), 1);
            assert!(*found[0] <= crossing);
        }
    }
}

#[test]
fn a_pass_is_chosen_exactly_when_no_chain_of_lesser_ones_joins_its_basins() {
    for (neighbours, ground) in asked() {
        let (basins, passes, chosen) = stages(neighbours, &ground);
        for (at, pass) in passes.iter().enumerate() {
            let lesser = &passes[..at];
            let joined = reached(basins.of(pass.lesser), lesser, &ground, &basins)
                .contains(&basins.of(pass.greater));
            assert_eq!(chosen.contains(pass), !joined, "{pass:?} in {ground:?}");
        }
    }
}

#[test]
fn there_are_as_many_chosen_passes_as_inner_basins() {
    for (neighbours, ground) in asked() {
        let (basins, _, chosen) = stages(neighbours, &ground);
        let inner = basins
            .all()
            .filter(|&basin| !is_outlet_basin(&ground, &basins, basin));
        assert_eq!(chosen.len(), inner.count());
    }
}

/// Without its outflow a basin has no way left to an outlet basin, so it is on the only one.
#[test]
fn an_outflow_is_the_first_pass_on_the_only_way_out() {
    for (neighbours, ground) in asked() {
        let (basins, _, chosen) = stages(neighbours, &ground);
        for (number, outflow) in outflows(&chosen, &basins, &ground).iter().enumerate() {
            let basin = Basin::at(number);
            let Some(Outflow { near, far }) = *outflow else {
                assert!(is_outlet_basin(&ground, &basins, basin));
                continue;
            };
            let (lesser, greater) = (near.min(far), near.max(far));
            let mut others = chosen.clone();
            others.retain(|pass| (pass.lesser, pass.greater) != (lesser, greater));
            assert_eq!(others.len() + 1, chosen.len());
            assert_eq!(basins.of(near), basin);
            let left = reached(basin, &others, &ground, &basins);
            let leads_out = |&basin: &Basin| is_outlet_basin(&ground, &basins, basin);
            assert!(!left.iter().any(leads_out));
        }
    }
}
