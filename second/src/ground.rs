//! Ground: a tile's size and its three lists, and what makes it refused.

use crate::neighbours::Neighbours;
use crate::refusal::Refusal;

/// A cell number: row times width plus column. Kept apart from basin numbers by its type.
#[derive(Clone, Copy, Debug, PartialEq, Eq, PartialOrd, Ord)]
pub struct Cell(pub u16);

/// A basin number. Kept apart from cell numbers by its type.
#[derive(Clone, Copy, Debug, PartialEq, Eq, PartialOrd, Ord)]
pub struct Basin(pub u16);

impl Cell {
    /// The cell at this index of a list that has one entry for each cell.
    pub fn at(index: usize) -> Cell {
        Cell(index as u16)
    }

    /// Where this cell stands in a list that has one entry for each cell.
    pub fn index(self) -> usize {
        usize::from(self.0)
    }
}

impl Basin {
    /// The basin at this index of a list that has one entry for each basin.
    pub fn at(index: usize) -> Basin {
        Basin(index as u16)
    }

    /// Where this basin stands in a list that has one entry for each basin.
    pub fn index(self) -> usize {
        usize::from(self.0)
    }
}

/// The least and the greatest height, in 1/256 metre, both allowed.
pub const HEIGHTS: std::ops::RangeInclusive<i32> = -8_000_000..=8_000_000;

/// Width and height of a tile.
#[derive(Clone, Copy, Debug, PartialEq, Eq)]
pub struct Size {
    pub width: usize,
    pub height: usize,
}

impl Size {
    /// Document 01's N. Only asked of a size that has been judged.
    pub fn cells(self) -> usize {
        self.width * self.height
    }

    /// Refusal 1.
    pub fn judge(self) -> Result<(), Refusal> {
        let allowed = 1..=64;
        if allowed.contains(&self.width) && allowed.contains(&self.height) {
            Ok(())
        } else {
            Err(Refusal::Size)
        }
    }

    /// The row and the column of a cell, each from 0.
    pub fn row_and_column(self, cell: Cell) -> (usize, usize) {
        (cell.index() / self.width, cell.index() % self.width)
    }

    /// Whether a neighbour is a diagonal one: in another row and in another column.
    pub fn is_diagonal(self, cell: Cell, neighbour: Cell) -> bool {
        let (row, column) = self.row_and_column(cell);
        let (other_row, other_column) = self.row_and_column(neighbour);
        row != other_row && column != other_column
    }

    /// Document 01's neighbours of a cell, by ascending number: those that share a side with it.
    /// What can't be asked for others keeps to them.
    pub fn neighbours(self, cell: Cell) -> impl Iterator<Item = Cell> {
        Neighbours::Four.of(cell, self)
    }
}

/// A tile's ground as lists.
#[derive(Clone, Debug, PartialEq, Eq)]
pub struct Ground {
    pub size: Size,
    pub heights: Vec<i32>,
    pub marks: Vec<u8>,
    pub water: Vec<u16>,
}

impl Ground {
    pub fn height(&self, cell: Cell) -> i32 {
        self.heights[cell.index()]
    }

    pub fn is_outlet(&self, cell: Cell) -> bool {
        self.marks[cell.index()] == 1
    }

    /// All cells of the tile, by ascending number.
    pub fn cells(&self) -> impl Iterator<Item = Cell> {
        (0..self.size.cells()).map(Cell::at)
    }

    /// All that can be refused about a ground that comes as lists.
    pub fn judge(&self) -> Result<(), Refusal> {
        self.judge_lists()?;
        self.judge_cells()
    }

    /// Refusals 1 and 2.
    pub fn judge_lists(&self) -> Result<(), Refusal> {
        self.size.judge()?;
        let lengths = [self.heights.len(), self.marks.len(), self.water.len()];
        if lengths.iter().all(|&length| length == self.size.cells()) {
            Ok(())
        } else {
            Err(Refusal::Length)
        }
    }

    /// Refusals 4, 5 and 6: all heights before any mark.
    pub fn judge_cells(&self) -> Result<(), Refusal> {
        judge_heights(&self.heights)?;
        judge_marks(&self.marks)?;
        judge_outlets(&self.marks)
    }
}

/// Refusal 4, at the first cell with a height out of range.
pub fn judge_heights(heights: &[i32]) -> Result<(), Refusal> {
    match heights.iter().position(|height| !HEIGHTS.contains(height)) {
        Some(index) => Err(Refusal::Height(Cell::at(index))),
        None => Ok(()),
    }
}

/// Refusal 5, at the first cell with a mark that is neither 0 nor 1.
pub fn judge_marks(marks: &[u8]) -> Result<(), Refusal> {
    match marks.iter().position(|&mark| mark > 1) {
        Some(index) => Err(Refusal::Mark(Cell::at(index))),
        None => Ok(()),
    }
}

/// Refusal 6.
pub fn judge_outlets(marks: &[u8]) -> Result<(), Refusal> {
    if marks.contains(&1) {
        Ok(())
    } else {
        Err(Refusal::NoOutlet)
    }
}
