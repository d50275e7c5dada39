//! Lakes that are made to be slow, 64 by 64, one function for each way to make one so. Most of them fill the tile, behind a rim on its
//! border.

use compare::chance::Chance;
use compare::outlets::{self, Outlets};
use compare::reliefs::{self, each_cell, spiral, Relief};
use second::ground::{Cell, Size, HEIGHTS};

use crate::adversarial::{family, Family};
use crate::slow_reliefs as slow;

/// All families. What each of them tries stands above its land.
pub const FAMILIES: [Family; 13] = [
    family("peeled, 64 deep", peeled_64_deep, outlets::border),
    family("peeled, flat", peeled_flat, outlets::border),
    family("peeled, too deep", peeled_too_deep, outlets::border),
    family("sills in a row", sills_in_a_row, FIRST),
    family("64 of them", sixty_four_sills, FIRST),
    family("quartered", quartered, outlets::border),
    family("equal checkers", equal_checkers, outlets::one),
    family("two high checkers", two_high_checkers, outlets::one),
    family(
        "rough lake",
        |chance, size| behind_rim(chance, size, slow::whole_range),
        outlets::border,
    ),
    family(
        "hilly lake",
        |chance, size| behind_rim(chance, size, reliefs::hills),
        outlets::border,
    ),
    family(
        "flat lake",
        |chance, size| behind_rim(chance, size, reliefs::level),
        outlets::border,
    ),
    family(
        "dented lake",
        |chance, size| behind_rim(chance, size, slow::bumps),
        outlets::border,
    ),
    family(
        "never split",
        |chance, size| behind_rim(chance, size, never_split),
        outlets::border,
    ),
];

/// The outlet where a spiral begins.
const FIRST: Outlets = |_, size| {
    let mut marks = vec![0; size.cells()];
    marks[0] = 1;
    marks
};

/// Higher than anything else but for the ends of the range.
const RIM: i32 = 7_000_000;

fn row_of(size: Size, cell: usize) -> i32 {
    (cell / size.width) as i32
}

fn column_of(size: Size, cell: usize) -> i32 {
    (cell % size.width) as i32
}

fn on_border(size: Size, row: i32, column: i32) -> bool {
    let last = |length: usize| length as i32 - 1;
    row == 0 || column == 0 || row == last(size.height) || column == last(size.width)
}

/// Any land, with its border as high as heights go.
fn behind_rim(chance: &mut Chance, size: Size, relief: Relief) -> Vec<i32> {
    let mut inner = relief(chance, size).into_iter();
    each_cell(size, |row, column| {
        let height = inner.next().expect("a height for each cell");
        match on_border(size, row, column) {
            true => *HEIGHTS.end(),
            false => height,
        }
    })
}

/// No two cells are equally high, neighbouring numbers are far apart, and yet the cells below any height are one group: cells come
/// one after the other, each beside one that has come. Cells for which the test fails are left at 0.
fn grown(chance: &mut Chance, size: Size, grows: impl Fn(usize) -> bool) -> Vec<i32> {
    let mut heights = vec![0; size.cells()];
    let first = (0..size.cells()).find(|&cell| grows(cell));
    let mut edge: Vec<usize> = first.into_iter().collect();
    let mut next = 0;
    while !edge.is_empty() {
        let cell = edge.swap_remove(chance.below(edge.len()));
        if heights[cell] == 0 {
            next += 1;
            heights[cell] = next;
            let near = size.neighbours(Cell::at(cell)).map(Cell::index);
            edge.extend(near.filter(|&other| heights[other] == 0 && grows(other)));
        }
    }
    heights
}

/// A lake as large as the tile that does not split.
fn never_split(chance: &mut Chance, size: Size) -> Vec<i32> {
    let inside = |cell| !on_border(size, row_of(size, cell), column_of(size, cell));
    grown(chance, size, inside)
}

/// What stands at a cell of a lake that is peeled.
enum Peel {
    Rim,
    Pit,
    /// One of the four cells around the pit with this number.
    Around(i32),
    Bottom,
}

/// A lake as large as the tile from which each split takes one cell: a pit amid four equally high cells, so many of them.
fn peel(size: Size, pits: i32, cell: usize) -> Peel {
    let (row, column) = (row_of(size, cell), column_of(size, cell));
    let apart = 6;
    let in_a_row = (size.width as i32 - 2) / apart;
    let (down, across) = ((row - 1) / apart, (column - 1) / apart);
    let number = down * in_a_row + across;
    let there = (0..pits).contains(&number) && across < in_a_row;
    match ((row - 1) % apart - 2).abs() + ((column - 1) % apart - 2).abs() {
        _ if on_border(size, row, column) => Peel::Rim,
        0 if there => Peel::Pit,
        1 if there => Peel::Around(number),
        _ => Peel::Bottom,
    }
}

/// Such a lake over a bottom of these heights.
fn peeled(size: Size, pits: i32, bottom: &[i32]) -> Vec<i32> {
    let height = |cell| match peel(size, pits, cell) {
        Peel::Rim => RIM,
        Peel::Pit => 100_000,
        Peel::Around(number) => 200_000 + number,
        Peel::Bottom => bottom[cell],
    };
    (0..size.cells()).map(height).collect()
}

/// Such a lake over a bottom that does not split.
fn peeled_and_grown(chance: &mut Chance, size: Size, pits: i32) -> Vec<i32> {
    let is_bottom = |cell| matches!(peel(size, pits, cell), Peel::Bottom);
    let bottom = grown(chance, size, is_bottom);
    peeled(size, pits, &bottom)
}

/// As deep as a lake may be, and as large as it can be all the way down.
fn peeled_64_deep(chance: &mut Chance, size: Size) -> Vec<i32> {
    let pits = chance.pick(&[63, 63, 62, 60]);
    peeled_and_grown(chance, size, pits)
}

/// The same with a bottom of one height.
fn peeled_flat(chance: &mut Chance, size: Size) -> Vec<i32> {
    let pits = chance.pick(&[63, 63, 62, 60]);
    peeled(size, pits, &vec![0; size.cells()])
}

/// The same as the first, and refused.
fn peeled_too_deep(chance: &mut Chance, size: Size) -> Vec<i32> {
    let pits = chance.pick(&[64, 65, 80, 100]);
    peeled_and_grown(chance, size, pits)
}

/// A winding corridor: an outlet, then so many pits with sills between them that rise towards the outlet. What is left of the
/// corridor is as deep as the pits and drains into the last one.
fn corridor(size: Size, pits: usize) -> Vec<i32> {
    let path = spiral(size, 2);
    let pits = pits.min(path.len() / 2);
    let mut heights = vec![RIM; size.cells()];
    for (place, &cell) in path.iter().enumerate() {
        heights[cell] = match place % 2 {
            0 if place < 2 * pits => 10_000 - place as i32,
            _ => 0,
        };
    }
    heights
}

/// As many as there is place for, more than a thousand deep.
fn sills_in_a_row(_: &mut Chance, size: Size) -> Vec<i32> {
    corridor(size, usize::MAX)
}

/// As many as may be, and the last one is large.
fn sixty_four_sills(chance: &mut Chance, size: Size) -> Vec<i32> {
    corridor(size, chance.pick(&[64, 64, 63, 40]))
}

/// Walls that quarter the tile, lower ones that quarter each quarter, and so on: as many lakes as there can be, none of them deep.
fn quartered(chance: &mut Chance, size: Size) -> Vec<i32> {
    let roughness = chance.pick(&[0, 0, 1]);
    each_cell(size, |row, column| {
        let rank = |line: i32| line.trailing_zeros() as i32;
        match on_border(size, row, column) {
            true => RIM,
            false => 10 * rank(row).max(rank(column)) + chance.between(0, roughness),
        }
    })
}

/// Every second cell a lake of its own.
fn equal_checkers(chance: &mut Chance, size: Size) -> Vec<i32> {
    let fall = chance.pick(&[0, 0, 3]);
    each_cell(size, |row, column| match (row + column) % 2 {
        0 => -chance.between(0, fall),
        _ => 1_000,
    })
}

/// High cells of two heights or a few: lakes of many pits, and most of them in one split.
fn two_high_checkers(chance: &mut Chance, size: Size) -> Vec<i32> {
    let highs = chance.pick(&[2, 2, 3, 5]);
    each_cell(size, |row, column| match (row + column) % 2 {
        0 => 0,
        _ => chance.between(1, highs),
    })
}

#[cfg(test)]
mod tests {
    use super::*;
    use crate::adversarial::testing;
    use second::lakes::{lakes, listed, Lake};
    use second::refusal::Refusal;

    /// The outermost lakes of each tile of a family.
    fn found(name: &str) -> Vec<Result<Vec<Lake>, Refusal>> {
        let tiles = testing::grounds(&FAMILIES, name);
        tiles.iter().map(lakes).collect()
    }

    #[test]
    fn every_tile_is_a_sound_ground() {
        testing::all_are_sound(&FAMILIES);
    }

    #[test]
    fn peeled_lakes_are_64_deep_and_stay_large() {
        for found in found("peeled, 64 deep")
            .into_iter()
            .chain(found("peeled, flat"))
        {
            let found = found.expect("none is too deep");
            assert!((60..=64).contains(&found[0].depth()));
            let large = |lake: &&&Lake| lake.cells.len() > 3_000;
            assert!(listed(&found).iter().filter(large).count() >= 60);
        }
        assert!(found("peeled, 64 deep")
            .into_iter()
            .flatten()
            .any(|lakes| lakes[0].depth() == 64));
    }

    #[test]
    fn what_should_never_split_does_not() {
        for found in found("never split") {
            assert_eq!(listed(&found.expect("it is not deep")).len(), 1);
        }
    }

    #[test]
    fn what_should_be_too_deep_is() {
        for name in ["peeled, too deep", "sills in a row"] {
            assert!(found(name).iter().all(Result::is_err), "{name}");
        }
        let deepest =
            |found: &Result<Vec<Lake>, Refusal>| found.as_ref().map_or(0, |lakes| lakes[0].depth());
        assert_eq!(found("64 of them").iter().map(deepest).max(), Some(64));
    }

    #[test]
    fn there_are_thousands_of_lakes() {
        let most = |name: &str| {
            let counts = found(name)
                .into_iter()
                .flatten()
                .map(|lakes| listed(&lakes).len());
            counts.max().unwrap_or(0)
        };
        assert!(most("equal checkers") >= 2_000);
        assert!(most("quartered") >= 1_000);
    }
}
