//! Refusals: the table of numbers given back, each with its place.

use crate::ground::Cell;

/// One case for each refusing row of the table, in the order of the table.
#[derive(Clone, Copy, Debug, PartialEq, Eq)]
pub enum Refusal {
    /// 11: a count of neighbours other than 4 or 8.
    Neighbours,
    /// 12: a manner other than 1 or 2.
    Manner,
    /// 1: width or height is 0 or above 64.
    Size,
    /// 2: a list or a record has not the length it should have.
    Length,
    /// 7: a distance in the trailer is wrong.
    Distance,
    /// 3: an output list or record is too short. For the list of lakes it comes after 10.
    Room,
    /// 4: a height is out of range, at the first such cell.
    Height(Cell),
    /// 5: a mark is neither 0 nor 1, at the first such cell.
    Mark(Cell),
    /// 6: no outlet.
    NoOutlet,
    /// 10: an outermost lake of depth above 64. This is the least cell of the first such lake.
    Depth(Cell),
    /// 8: the traced cell number is not below the list's length.
    TracedCell,
    /// 9: the trace meets an entry not below the list's length, in this cell.
    TracedEntry(Cell),
}

impl Refusal {
    /// The number in the table's first column.
    pub fn number(self) -> u32 {
        match self {
            Refusal::Neighbours => 11,
            Refusal::Manner => 12,
            Refusal::Size => 1,
            Refusal::Length => 2,
            Refusal::Distance => 7,
            Refusal::Room => 3,
            Refusal::Height(_) => 4,
            Refusal::Mark(_) => 5,
            Refusal::NoOutlet => 6,
            Refusal::Depth(_) => 10,
            Refusal::TracedCell => 8,
            Refusal::TracedEntry(_) => 9,
        }
    }

    /// The place in the table's last column.
    pub fn place(self) -> u32 {
        match self {
            Refusal::Height(cell)
            | Refusal::Mark(cell)
            | Refusal::Depth(cell)
            | Refusal::TracedEntry(cell) => u32::from(cell.0),
            _ => 0,
        }
    }

    /// The refusal as the C interface gives it: number times 65,536 plus place.
    pub fn answer(self) -> u32 {
        self.number() * 65_536 + self.place()
    }
}
