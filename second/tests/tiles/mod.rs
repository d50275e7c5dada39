//! Tiles by hand, for the tests.

use second::ground::{Ground, Size};

/// A tile of rows of equal width, with water 1 in each cell. The outlets are named by their cells.
pub fn tile(rows: &[&[i32]], outlets: &[usize]) -> Ground {
    let heights = rows.concat();
    let mut marks = vec![0; heights.len()];
    for &outlet in outlets {
        marks[outlet] = 1;
    }
    Ground {
        size: Size {
            width: rows[0].len(),
            height: rows.len(),
        },
        water: vec![1; heights.len()],
        heights,
        marks,
    }
}
