//! Sheet flow put together from parts, each of which a mutant may exchange for a wrong one.

use second::ground::{Cell, Ground};
use second::neighbours::Neighbours;

use super::step::Step;

/// A tile with its levels.
pub struct Surface<'a> {
    neighbours: Neighbours,
    pub ground: &'a Ground,
    /// The tile as if its levels were its heights, so that a step's drop is one of the level.
    pub levels: Ground,
}

impl Surface<'_> {
    pub fn level(&self, cell: Cell) -> i32 {
        self.levels.height(cell)
    }

    pub fn neighbours(&self, cell: Cell) -> impl Iterator<Item = Cell> {
        self.neighbours.of(cell, self.ground.size)
    }

    /// The step over the surface from one cell to another.
    pub fn step(&self, from: Cell, to: Cell) -> Step<'_> {
        let ground = &self.levels;
        Step { ground, from, to }
    }

    pub fn is_lower(&self, from: Cell, to: Cell) -> bool {
        self.level(to) < self.level(from)
    }

    pub fn is_level(&self, from: Cell, to: Cell) -> bool {
        self.level(to) == self.level(from)
    }

    pub fn has_lower(&self, cell: Cell) -> bool {
        self.neighbours(cell)
            .any(|other| self.is_lower(cell, other))
    }

    pub fn is_outlet(&self, cell: Cell) -> bool {
        self.ground.is_outlet(cell)
    }
}

/// What a step from one cell to another comes to.
type OfStep<T> = fn(&Surface, Cell, Cell) -> T;

/// The parts of sheet flow.
pub struct Parts {
    /// Whether water runs down a step.
    pub down: OfStep<bool>,
    /// Of the steps down the one with the least of these, then the least cell.
    pub lowest: OfStep<(i64, i64)>,
    /// Whether steps are counted over this one.
    pub level: OfStep<bool>,
    /// Whether the count ends at a cell.
    pub ends: fn(&Surface, Cell) -> bool,
    /// What is kept of a count.
    pub kept: fn(u32) -> u32,
    /// Whether a cell of the first count receives to one of the second.
    pub nearer: fn(u32, u32) -> bool,
    /// Of those the one with the least of these, then the least cell.
    pub first: OfStep<i64>,
}

/// The parts as they should be.
pub const RIGHT: Parts = Parts {
    down: |surface, from, to| surface.is_lower(from, to),
    lowest: |surface, _, to| (surface.level(to).into(), 0),
    level: |surface, from, to| surface.is_level(from, to),
    ends: |surface, cell| surface.is_outlet(cell) || surface.has_lower(cell),
    kept: |count| count,
    nearer: |count, other| other + 1 == count,
    first: |_, _, _| 0,
};

impl Parts {
    /// The receivers that these parts give. A cell that they give none receives to itself.
    pub fn receivers(&self, neighbours: Neighbours, ground: &Ground, levels: &[i32]) -> Vec<Cell> {
        let surface = Surface {
            neighbours,
            ground,
            levels: Ground {
                heights: levels.to_vec(),
                ..ground.clone()
            },
        };
        let counts = self.counts(&surface);
        let receiver = |cell: Cell| match ground.is_outlet(cell) {
            true => None,
            false => self
                .below(&surface, cell)
                .or_else(|| self.beside(&surface, &counts, cell)),
        };
        ground
            .cells()
            .map(|cell| receiver(cell).unwrap_or(cell))
            .collect()
    }

    fn below(&self, surface: &Surface, cell: Cell) -> Option<Cell> {
        surface
            .neighbours(cell)
            .filter(|&other| (self.down)(surface, cell, other))
            .min_by_key(|&other| ((self.lowest)(surface, cell, other), other))
    }

    fn beside(&self, surface: &Surface, counts: &[Option<u32>], cell: Cell) -> Option<Cell> {
        let count = counts[cell.index()]?;
        let is_nearer =
            |other: &Cell| counts[other.index()].is_some_and(|other| (self.nearer)(count, other));
        surface
            .neighbours(cell)
            .filter(|&other| (self.level)(surface, cell, other))
            .filter(is_nearer)
            .min_by_key(|&other| ((self.first)(surface, cell, other), other))
    }

    /// Round by round: what is one step from the cells of the round before.
    fn counts(&self, surface: &Surface) -> Vec<Option<u32>> {
        let mut counts = vec![None; surface.ground.size.cells()];
        let ends = |&cell: &Cell| (self.ends)(surface, cell);
        let mut round: Vec<Cell> = surface.ground.cells().filter(ends).collect();
        for count in 0.. {
            round.retain(|cell| counts[cell.index()].is_none());
            round.sort();
            round.dedup();
            if round.is_empty() {
                break;
            }
            let mut next = Vec::new();
            for &cell in &round {
                counts[cell.index()] = Some((self.kept)(count));
                let before = surface.neighbours(cell);
                next.extend(before.filter(|&other| (self.level)(surface, other, cell)));
            }
            round = next;
        }
        counts
    }
}

#[cfg(test)]
mod tests {
    use super::*;
    use crate::families::testing::tiles;
    use crate::sheet_families::SHEET_FAMILIES;
    use second::manner::Manner;
    use second::network::network_by;

    /// A mutant then has no fault but its own.
    #[test]
    fn the_right_parts_give_the_second_programs_receivers() {
        for family in &SHEET_FAMILIES {
            for ground in tiles(&SHEET_FAMILIES, family.name, 60) {
                for neighbours in Neighbours::BOTH {
                    let network = network_by(neighbours, Manner::Sheet, &ground);
                    let found = RIGHT.receivers(neighbours, &ground, &network.levels);
                    assert_eq!(found, network.receivers, "{}", family.name);
                }
            }
        }
    }
}
