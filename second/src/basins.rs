//! Rule 2: the basins, numbered by ascending number of their singular cell.

use crate::ground::{Basin, Cell};

/// Which cells make which basin.
#[derive(Clone, Debug, PartialEq, Eq)]
pub struct Basins {
    /// The basin of each cell.
    pub of_cells: Vec<Basin>,
    /// The singular cell of each basin.
    pub singular_cells: Vec<Cell>,
}

impl Basins {
    pub fn count(&self) -> usize {
        self.singular_cells.len()
    }

    /// All basins, by ascending number.
    pub fn all(&self) -> impl Iterator<Item = Basin> {
        (0..self.count()).map(Basin::at)
    }

    pub fn of(&self, cell: Cell) -> Basin {
        self.of_cells[cell.index()]
    }

    pub fn singular_cell(&self, basin: Basin) -> Cell {
        self.singular_cells[basin.index()]
    }
}

/// All basins of a tile with these first receivers.
pub fn basins(first_receivers: &[Option<Cell>]) -> Basins {
    let cells = || (0..first_receivers.len()).map(Cell::at);
    let singular_cells: Vec<Cell> = cells()
        .filter(|cell| first_receivers[cell.index()].is_none())
        .collect();
    let mut basin_of_singular = vec![Basin(0); first_receivers.len()];
    for (number, cell) in singular_cells.iter().enumerate() {
        basin_of_singular[cell.index()] = Basin::at(number);
    }
    let of_cells = cells()
        .map(|cell| basin_of_singular[lowest(first_receivers, cell).index()])
        .collect();
    Basins {
        of_cells,
        singular_cells,
    }
}

/// The singular cell that the first receivers lead to from this cell.
fn lowest(first_receivers: &[Option<Cell>], mut cell: Cell) -> Cell {
    while let Some(next) = first_receivers[cell.index()] {
        cell = next;
    }
    cell
}
