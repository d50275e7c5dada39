//! Who neighbours whom: over the sides alone, as in document 01, or over the corners too (W-203).

use crate::ground::{Cell, Size};
use crate::refusal::Refusal;

/// The neighbours that a caller asks for.
#[derive(Clone, Copy, Debug, PartialEq, Eq)]
pub enum Neighbours {
    /// The cells that share a side with a cell: the straight ones.
    Four,
    /// Those that only touch it at a corner as well: the diagonal ones.
    Eight,
}

impl Neighbours {
    /// All that can be asked for.
    pub const BOTH: [Neighbours; 2] = [Neighbours::Four, Neighbours::Eight];

    /// Refusal 11: any count other than 4 or 8. All its 32 bits count.
    pub fn asked_for(count: u32) -> Result<Neighbours, Refusal> {
        match count {
            4 => Ok(Neighbours::Four),
            8 => Ok(Neighbours::Eight),
            _ => Err(Refusal::Neighbours),
        }
    }

    /// The neighbours of a cell, by ascending number.
    pub fn of(self, cell: Cell, size: Size) -> impl Iterator<Item = Cell> {
        let (row, column) = size.row_and_column(cell);
        self.steps().iter().filter_map(move |&(down, along)| {
            // Before the first row or column a number wraps, and is past the last one.
            let row = row.wrapping_add_signed(down);
            let column = column.wrapping_add_signed(along);
            let is_inside = row < size.height && column < size.width;
            is_inside.then(|| Cell::at(row * size.width + column))
        })
    }

    /// How far away neighbours are in rows and in columns, in the order of their numbers.
    fn steps(self) -> &'static [(isize, isize)] {
        match self {
            Neighbours::Four => &[(-1, 0), (0, -1), (0, 1), (1, 0)],
            Neighbours::Eight => &[
                (-1, -1),
                (-1, 0),
                (-1, 1),
                (0, -1),
                (0, 1),
                (1, -1),
                (1, 0),
                (1, 1),
            ],
        }
    }
}
