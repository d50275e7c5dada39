//! W-205: sheet flow. Each cell's receiver follows from the levels of carving alone.

use crate::ground::{Cell, Ground};
use crate::neighbours::Neighbours;

/// The receivers of sheet flow over these levels, with an outlet's written as its own number.
pub fn sheet(neighbours: Neighbours, ground: &Ground, levels: &[i32]) -> Vec<Cell> {
    let surface = Surface {
        neighbours,
        ground,
        levels,
    };
    let counts = surface.counts();
    ground
        .cells()
        .map(|cell| surface.receiver(cell, &counts).unwrap_or(cell))
        .collect()
}

/// The water surface of a tile.
struct Surface<'a> {
    neighbours: Neighbours,
    ground: &'a Ground,
    levels: &'a [i32],
}

impl Surface<'_> {
    fn level(&self, cell: Cell) -> i32 {
        self.levels[cell.index()]
    }

    fn neighbours(&self, cell: Cell) -> impl Iterator<Item = Cell> {
        self.neighbours.of(cell, self.ground.size)
    }

    /// The neighbours of a cell that have its own level.
    fn level_neighbours(&self, cell: Cell) -> impl Iterator<Item = Cell> + '_ {
        self.neighbours(cell)
            .filter(move |&neighbour| self.level(neighbour) == self.level(cell))
    }

    /// An outlet has none.
    fn receiver(&self, cell: Cell, counts: &[Option<u32>]) -> Option<Cell> {
        if self.ground.is_outlet(cell) {
            return None;
        }
        self.lowest_lower(cell)
            .or_else(|| self.one_step_nearer(cell, counts))
    }

    /// With a neighbour of strictly lower level: the neighbour of lowest level, least number first.
    fn lowest_lower(&self, cell: Cell) -> Option<Cell> {
        self.neighbours(cell)
            .filter(|&neighbour| self.level(neighbour) < self.level(cell))
            .min_by_key(|&neighbour| (self.level(neighbour), neighbour))
    }

    /// The neighbour of the cell's level whose count is one less, least number first.
    fn one_step_nearer(&self, cell: Cell, counts: &[Option<u32>]) -> Option<Cell> {
        let count = counts[cell.index()]?;
        self.level_neighbours(cell)
            .filter(|neighbour| counts[neighbour.index()].is_some_and(|one| one + 1 == count))
            .min()
    }

    /// Each cell's fewest steps, through neighbours of its own level, to an outlet or to a cell with a
    /// strictly lower neighbour level. So an outlet of another level is never come to.
    /// Over levels of carving there is an end to come to from every cell.
    fn counts(&self) -> Vec<Option<u32>> {
        let is_end =
            |&cell: &Cell| self.ground.is_outlet(cell) || self.lowest_lower(cell).is_some();
        let mut counts = vec![None; self.levels.len()];
        // All cells with a count of 0, then all with a count of 1, and so on.
        let mut reached: Vec<Cell> = self.ground.cells().filter(is_end).collect();
        let mut count = 0;
        while !reached.is_empty() {
            for cell in &reached {
                counts[cell.index()] = Some(count);
            }
            reached = reached
                .iter()
                .flat_map(|&cell| self.level_neighbours(cell))
                .filter(|neighbour| counts[neighbour.index()].is_none())
                .collect();
            reached.sort();
            reached.dedup();
            count += 1;
        }
        counts
    }
}
