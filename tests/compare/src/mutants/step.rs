//! A step from a cell to a neighbour, for mutants that take some steps only or compare them wrongly.

use second::first_receivers::steepness;
use second::ground::{Cell, Ground};
use second::passes::Crossing;

/// A step from a cell to one of its neighbours.
pub struct Step<'a> {
    pub ground: &'a Ground,
    pub from: Cell,
    pub to: Cell,
}

impl<'a> Step<'a> {
    /// The step over a crossing, from its lesser cell.
    pub fn over(ground: &'a Ground, crossing: &Crossing) -> Step<'a> {
        Step {
            ground,
            from: crossing.lesser,
            to: crossing.greater,
        }
    }

    /// How far it leads down the rows and along the columns: -1, 0 or 1 each.
    pub fn direction(&self) -> (isize, isize) {
        let (row, column) = self.ground.size.row_and_column(self.from);
        let (to_row, to_column) = self.ground.size.row_and_column(self.to);
        let signed = |to: usize, from: usize| to as isize - from as isize;
        (signed(to_row, row), signed(to_column, column))
    }

    pub fn is_diagonal(&self) -> bool {
        self.ground.size.is_diagonal(self.from, self.to)
    }

    /// The heights of the two cells that a diagonal step passes between.
    pub fn beside(&self) -> [i32; 2] {
        let width = self.ground.size.width;
        let (row, column) = self.ground.size.row_and_column(self.from);
        let (to_row, to_column) = self.ground.size.row_and_column(self.to);
        [row * width + to_column, to_row * width + column]
            .map(|cell| self.ground.height(Cell::at(cell)))
    }

    pub fn drop(&self) -> u64 {
        let (from, to) = (self.ground.height(self.from), self.ground.height(self.to));
        u64::from(from.abs_diff(to))
    }

    pub fn steepness(&self) -> u64 {
        steepness(self.ground, self.from, self.to)
    }

    /// The drop with a diagonal one divided by a fraction, all times the upper part of the fraction.
    /// Of equals the straight one is the steeper.
    pub fn divided_by(&self, upper: u64, lower: u64) -> (u64, bool) {
        match self.is_diagonal() {
            true => (lower * self.drop(), false),
            false => (upper * self.drop(), true),
        }
    }
}
