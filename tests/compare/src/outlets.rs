//! Outlets: the marks of a tile, one function for each way to place them. Each marks at least one.

use second::ground::Size;

use crate::chance::Chance;

/// A way to place outlets.
pub type Outlets = fn(&mut Chance, Size) -> Vec<u8>;

/// Marks the cells for which the test holds, given row and column.
fn marked(size: Size, is_outlet: impl Fn(usize, usize) -> bool) -> Vec<u8> {
    (0..size.cells())
        .map(|cell| u8::from(is_outlet(cell / size.width, cell % size.width)))
        .collect()
}

/// Any of the ways below, those with few outlets more often.
pub fn any(chance: &mut Chance, size: Size) -> Vec<u8> {
    let ways: [Outlets; 8] = [
        one,
        one,
        few,
        few,
        many,
        one_side,
        border,
        in_a_kind_of_place,
    ];
    chance.pick(&ways)(chance, size)
}

/// One outlet anywhere.
pub fn one(chance: &mut Chance, size: Size) -> Vec<u8> {
    let mut marks = vec![0; size.cells()];
    marks[chance.below(size.cells())] = 1;
    marks
}

/// A handful of outlets anywhere.
pub fn few(chance: &mut Chance, size: Size) -> Vec<u8> {
    let mut marks = one(chance, size);
    for _ in 0..chance.below(4) {
        marks[chance.below(size.cells())] = 1;
    }
    marks
}

/// Outlets in many cells.
pub fn many(chance: &mut Chance, size: Size) -> Vec<u8> {
    let sure = one(chance, size);
    let rarity = 2 + chance.below(8);
    sure.iter()
        .map(|&mark| mark | u8::from(chance.one_in(rarity)))
        .collect()
}

/// All cells.
pub fn all(_: &mut Chance, size: Size) -> Vec<u8> {
    vec![1; size.cells()]
}

/// All cells on the tile's border, as in the paper.
pub fn border(_: &mut Chance, size: Size) -> Vec<u8> {
    marked(size, |row, column| {
        row == 0 || column == 0 || row + 1 == size.height || column + 1 == size.width
    })
}

/// All cells along one side.
pub fn one_side(chance: &mut Chance, size: Size) -> Vec<u8> {
    let side = chance.below(4);
    marked(size, |row, column| match side {
        0 => row == 0,
        1 => column == 0,
        2 => row + 1 == size.height,
        _ => column + 1 == size.width,
    })
}

/// A few cells away from the border, where the tile has such cells.
pub fn inner(chance: &mut Chance, size: Size) -> Vec<u8> {
    let mut marks = vec![0; size.cells()];
    for _ in 0..1 + chance.below(4) {
        let row = inside(chance, size.height);
        let column = inside(chance, size.width);
        marks[row * size.width + column] = 1;
    }
    marks
}

/// A row or column that isn't the first or the last, if there is one.
fn inside(chance: &mut Chance, length: usize) -> usize {
    match length {
        0..=2 => chance.below(length),
        _ => 1 + chance.below(length - 2),
    }
}

/// One outlet: in a corner, on a side or inside, each equally often.
pub fn in_a_kind_of_place(chance: &mut Chance, size: Size) -> Vec<u8> {
    let (last_row, last_column) = (size.height - 1, size.width - 1);
    let row_inside = inside(chance, size.height);
    let column_inside = inside(chance, size.width);
    let (row, column) = chance.pick(&[
        (0, 0),
        (0, last_column),
        (last_row, 0),
        (last_row, last_column),
        (0, column_inside),
        (last_row, column_inside),
        (row_inside, 0),
        (row_inside, last_column),
        (row_inside, column_inside),
    ]);
    marked(size, |r, c| (r, c) == (row, column))
}
