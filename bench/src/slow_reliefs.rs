//! Land that is made to be slow, one function for each step of the method that it tries.

use compare::chance::Chance;
use compare::reliefs::each_cell;
use second::ground::{Size, HEIGHTS};

/// Far above everything else on the tile, so that no water crosses it.
pub const WALL: i32 = 1_000_000;

/// Corridors as long as the tile, joined at one end each along a row: long ways, and many that meet.
pub fn comb(chance: &mut Chance, size: Size) -> Vec<i32> {
    let step = chance.pick(&[0, 1, -1]);
    let apart = chance.pick(&[2, 2, 3]);
    let back = chance.pick(&[0, size.height as i32 - 1]);
    let along = chance.one_in(2);
    each_cell(size, |row, column| {
        let (tooth, place) = if along { (column, row) } else { (row, column) };
        match place == back || tooth % apart == 0 {
            true => tooth + step * (place - back).abs(),
            false => WALL,
        }
    })
}

/// One river through all of the tile, forth in one row and back in the next but one: the longest chain of first receivers. Half of
/// the tile is river, and the walls between drain into it, so that all water passes through its last cell.
pub fn serpentine(chance: &mut Chance, size: Size) -> Vec<i32> {
    let along = chance.one_in(2);
    let (upwards, fall) = (chance.one_in(2), chance.pick(&[1, 1, 0]));
    let (lanes, length) = (size.height as i32 / 2, size.width as i32);
    let cells = lanes * (length + 1);
    each_cell(size, |row, column| {
        let (lane, place) = if along { (column, row) } else { (row, column) };
        let forth = lane / 2 % 2 == 0;
        let passed = if forth { place } else { length - 1 - place };
        let turn = lane % 2 == 1 && passed == length - 1;
        let travelled = lane / 2 * (length + 1) + if turn { length } else { passed };
        match lane % 2 == 0 || turn {
            true if upwards => fall * travelled,
            true => fall * (cells - travelled),
            false => WALL,
        }
    })
}

/// Low cells and high ones in turn, each high one of its own height: a pit on every second cell, and crossings of unlike heights
/// wherever there can be one.
pub fn rough_checkerboard(chance: &mut Chance, size: Size) -> Vec<i32> {
    let span = chance.pick(&[255, 4_095, 70_000, *HEIGHTS.end()]);
    each_cell(size, |row, column| match (row + column) % 2 {
        0 => 0,
        _ => chance.between(1, span),
    })
}

/// Terraces, each one level: up, down or aslant, some of them a cell wide.
pub fn staircase(chance: &mut Chance, size: Size) -> Vec<i32> {
    let (down, across) = chance.pick(&[(1, 0), (0, 1), (1, 1), (-1, 0), (0, -1), (-1, -1)]);
    let tread = chance.between(1, 5);
    let rise = chance.pick(&[1, 4_096, 4_097, 60_000]);
    each_cell(size, |row, column| {
        rise * (down * row + across * column).div_euclid(tread)
    })
}

/// Teeth: up by small steps and down at once, along rows, columns or aslant, the crests rising or falling over the tile.
pub fn sawtooth(chance: &mut Chance, size: Size) -> Vec<i32> {
    let (down, across) = chance.pick(&[(1, 0), (0, 1), (1, 1)]);
    let tooth = chance.between(2, 7);
    let step = chance.pick(&[1, 17, 4_097, 30_000]);
    let rising = chance.pick(&[0, 1, -1]);
    each_cell(size, |row, column| {
        let along = down * row + across * column;
        step * (along % tooth) + rising * (along / tooth)
    })
}

/// One steep slope: no pit, and ways straight across the tile.
pub fn steep_slope(chance: &mut Chance, size: Size) -> Vec<i32> {
    let (down, across) =
        chance.pick(&[(1, 0), (0, 1), (1, 1), (-1, 0), (0, -1), (-1, -1), (1, -1)]);
    each_cell(size, |row, column| 40_000 * (down * row + across * column))
}

/// Two heights or a few, in no order, that differ in both digits of the sort: which of them comes next can't be guessed.
pub fn unlike_digits(chance: &mut Chance, size: Size) -> Vec<i32> {
    let heights = chance.pick(&[2, 2, 3, 4, 8, 16]);
    let rarity = chance.pick(&[2, 3, 4]);
    each_cell(size, |_, _| match chance.one_in(rarity) {
        true => 4_097 * chance.between(1, heights - 1),
        false => 0,
    })
}

/// Level ground and bumps on it, each of its own height: most cells are pits, and most crossings of unlike heights.
pub fn bumps(chance: &mut Chance, size: Size) -> Vec<i32> {
    let rarity = chance.pick(&[2, 3, 4, 5, 6, 8, 12]);
    let span = chance.pick(&[3, 4_095, 70_000, *HEIGHTS.end()]);
    each_cell(size, |_, _| match chance.one_in(rarity) {
        true => chance.between(1, span),
        false => 0,
    })
}

/// Rows of pits behind sills that rise towards the first cell: groups grow by ever lesser basins, the deepest way to a group's root,
/// and the walls between the rows ask for the root from everywhere.
pub fn deep_groups(chance: &mut Chance, size: Size) -> Vec<i32> {
    let rise = chance.pick(&[1, 13, 200]);
    let steep = chance.one_in(2);
    each_cell(size, |row, column| {
        let from_last =
            (size.width as i32 - column) + i32::from(steep) * (size.height as i32 - row) * 64;
        match (row % 2, column % 2) {
            (0, 0) => 0,
            (0, _) => rise * from_last,
            _ => WALL + from_last,
        }
    })
}

/// Any heights of the whole range.
pub fn whole_range(chance: &mut Chance, size: Size) -> Vec<i32> {
    each_cell(size, |_, _| {
        chance.between(*HEIGHTS.start(), *HEIGHTS.end())
    })
}
