//! Rule 1: the first receiver of each cell.

use std::cmp::Reverse;

use crate::ground::{Cell, Ground};
use crate::neighbours::Neighbours;

/// Each cell's first receiver. A singular cell, which is an outlet or a pit, has none.
pub fn first_receivers(neighbours: Neighbours, ground: &Ground) -> Vec<Option<Cell>> {
    ground
        .cells()
        .map(|cell| first_receiver(neighbours, ground, cell))
        .collect()
}

/// The steepest strictly lower neighbour; of equally steep ones, the least cell number.
/// Of 4 neighbours the steepest is the lowest, as document 01 has it.
fn first_receiver(neighbours: Neighbours, ground: &Ground, cell: Cell) -> Option<Cell> {
    if ground.is_outlet(cell) {
        return None;
    }
    neighbours
        .of(cell, ground.size)
        .filter(|&neighbour| ground.height(neighbour) < ground.height(cell))
        .min_by_key(|&neighbour| (Reverse(steepness(ground, cell, neighbour)), neighbour))
}

/// How steep it is from a cell down to its neighbour, as a number to compare: b times b for a
/// diagonal drop b, and twice a times a for a straight drop a, which is 49 bits at most.
/// A diagonal and a straight drop are never equally steep, since no square is twice another.
pub fn steepness(ground: &Ground, cell: Cell, neighbour: Cell) -> u64 {
    let drop = u64::from(ground.height(cell).abs_diff(ground.height(neighbour)));
    match ground.size.is_diagonal(cell, neighbour) {
        true => drop * drop,
        false => 2 * drop * drop,
    }
}
