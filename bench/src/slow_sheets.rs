//! Land that is made to be slow for sheet flow, 64 by 64: much of it at one level, so that nearly every cell has to count its steps.

use compare::chance::Chance;
use compare::outlets;
use compare::reliefs::{each_cell, level, spiral};
use second::ground::Size;

use crate::adversarial::{family, Family};
use crate::slow_reliefs::WALL;

/// All families. What each of them tries stands above its land.
pub const FAMILIES: [Family; 15] = [
    family("level spirals", |_, size| winding(size, 1), first_cell),
    family("spirals, 2 wide", |_, size| winding(size, 2), first_cell),
    family("level lanes", |_, size| lanes(size, 1), first_cell),
    family("lanes, 2 wide", |_, size| lanes(size, 2), first_cell),
    family("level combs", level_comb, first_cell),
    family("plain, corner", level, first_cell),
    family("plain, middle", level, middle),
    family("plain, border", level, outlets::border),
    family("two plateaus", two_plateaus, first_cell),
    family("plateaus, border", two_plateaus, outlets::border),
    family("terraces", terraces, first_cell),
    family("lake, flat", flat_lake, first_cell),
    family("lake, rough", rough_lake, first_cell),
    family("lake, bowl", bowl, first_cell),
    family("ponds", ponds, first_cell),
];

/// The cell in the first corner.
fn first_cell(_: &mut Chance, size: Size) -> Vec<u8> {
    marked(size, 0)
}

/// The cell in the middle.
fn middle(_: &mut Chance, size: Size) -> Vec<u8> {
    marked(size, size.height / 2 * size.width + size.width / 2)
}

fn marked(size: Size, outlet: usize) -> Vec<u8> {
    (0..size.cells())
        .map(|cell| u8::from(cell == outlet))
        .collect()
}

/// A level corridor that winds inwards from the first cell, so many cells wide as the walls beside it: the longest counts.
fn winding(size: Size, wide: usize) -> Vec<i32> {
    let (width, height) = (size.width / wide, size.height / wide);
    let mut heights = vec![WALL; width * height];
    for cell in spiral(Size { width, height }, 2) {
        heights[cell] = 0;
    }
    each_cell(size, |row, column| {
        heights[row as usize / wide * width + column as usize / wide]
    })
}

/// A level corridor forth and back through all of the tile, from the first cell on.
fn lanes(size: Size, wide: i32) -> Vec<i32> {
    let length = size.width as i32;
    each_cell(size, |row, column| {
        let lane = row / wide;
        let passed = match lane / 2 % 2 {
            0 => column,
            _ => length - 1 - column,
        };
        match lane % 2 == 0 || passed >= length - wide {
            true => 0,
            false => WALL,
        }
    })
}

/// Level corridors as long as the tile that meet in the first row, some of them two cells wide: many short counts that start together.
fn level_comb(chance: &mut Chance, size: Size) -> Vec<i32> {
    let wide = chance.pick(&[1, 1, 2]);
    each_cell(size, |row, column| {
        match row == 0 || column / wide % 2 == 0 {
            true => 0,
            false => WALL,
        }
    })
}

/// High plateaus and low ones in turn, each so many cells wide: with 4 neighbours the low ones are lakes, with 8 they drain at corners.
fn two_plateaus(chance: &mut Chance, size: Size) -> Vec<i32> {
    let wide = chance.pick(&[1, 2, 4, 8, 16]);
    let step = chance.pick(&[1, 4_097]);
    each_cell(size, |row, column| {
        step * ((row / wide + column / wide) % 2)
    })
}

/// Wide level steps that rise from the first cell, straight or aslant.
fn terraces(chance: &mut Chance, size: Size) -> Vec<i32> {
    let (down, across) = chance.pick(&[(1, 0), (0, 1), (1, 1)]);
    let tread = chance.between(3, 24);
    each_cell(size, |row, column| {
        256 * ((down * row + across * column) / tread)
    })
}

/// A river bed in the first row, and behind a rim with one sill a lake as large as the rest of the tile, over this bottom.
fn behind_a_sill(chance: &mut Chance, size: Size, bottom: &[i32]) -> Vec<i32> {
    const RIM: i32 = 1_000;
    const SILL: i32 = 500;
    let (last_row, last_column) = (size.height as i32 - 1, size.width as i32 - 1);
    let sill = chance.between(1, last_column - 1);
    each_cell(size, |row, column| match row {
        0 => 0,
        1 if column == sill => SILL,
        _ if row == 1 || row == last_row || column == 0 || column == last_column => RIM,
        _ => bottom[row as usize * size.width + column as usize],
    })
}

/// The bottom is level: each of its cells is a pit.
fn flat_lake(chance: &mut Chance, size: Size) -> Vec<i32> {
    behind_a_sill(chance, size, &vec![0; size.cells()])
}

/// The bottom is rough: many pits and unlike crossings, all of them under water.
fn rough_lake(chance: &mut Chance, size: Size) -> Vec<i32> {
    let bottom = each_cell(size, |_, _| chance.between(0, 400));
    behind_a_sill(chance, size, &bottom)
}

/// The bottom falls to the middle: one basin and hardly a crossing, so that carving has the least to do, and all cells are to be counted.
fn bowl(chance: &mut Chance, size: Size) -> Vec<i32> {
    let middle = size.width as i32 / 2;
    let bottom = each_cell(size, |row, column| {
        6 * ((row - middle).abs() + (column - middle).abs())
    });
    behind_a_sill(chance, size, &bottom)
}

/// Small bowls in rows, each with a lake at a level of its own: one pit in each.
fn ponds(chance: &mut Chance, size: Size) -> Vec<i32> {
    let wide = chance.pick(&[4, 8, 8, 16]);
    each_cell(size, |row, column| {
        let from_middle = |place: i32| (place % wide - wide / 2).abs();
        let pond = row / wide + column / wide;
        300 * pond + 10 * from_middle(row).max(from_middle(column))
    })
}

#[cfg(test)]
mod tests {
    use super::*;
    use crate::adversarial::testing;
    use second::ground::Ground;
    use second::manner::Manner;
    use second::neighbours::Neighbours;
    use second::network::{network_by, Network};

    /// The sheets of a family over 4 neighbours.
    fn sheets(name: &str) -> Vec<Network> {
        let sheet = |ground: &Ground| network_by(Neighbours::Four, Manner::Sheet, ground);
        testing::grounds(&FAMILIES, name)
            .iter()
            .map(sheet)
            .collect()
    }

    #[test]
    fn every_tile_is_a_sound_ground() {
        testing::all_are_sound(&FAMILIES);
    }

    /// The longest way on some tile of a family, in cells.
    fn longest_way(name: &str) -> usize {
        let longest = |sheet: &Network| testing::longest_way(&sheet.receivers);
        sheets(name).iter().map(longest).max().unwrap_or(0)
    }

    #[test]
    fn corridors_are_long() {
        assert!(longest_way("level spirals") > 2_000);
        assert!(longest_way("level lanes") > 2_000);
        assert!(longest_way("spirals, 2 wide") > 500);
        assert!(longest_way("lanes, 2 wide") > 900);
        assert_eq!(longest_way("plain, corner"), 127);
        assert_eq!(longest_way("plain, middle"), 65);
    }

    /// The most cells that one level of a tile has.
    fn largest_level(sheet: &Network) -> usize {
        let mut levels = sheet.levels.clone();
        levels.sort_unstable();
        let level = |one: &i32, other: &i32| one == other;
        levels.chunk_by(level).map(<[i32]>::len).max().unwrap_or(0)
    }

    #[test]
    fn lakes_and_plains_are_as_large_as_the_tile() {
        for name in ["lake, flat", "lake, rough", "lake, bowl", "plain, corner"] {
            assert!(sheets(name)
                .iter()
                .all(|sheet| largest_level(sheet) > 3_700));
        }
    }

    #[test]
    fn ponds_are_many() {
        for sheet in sheets("ponds") {
            assert!(sheet.wet.iter().filter(|&&wet| wet == 1).count() > 2_000);
        }
    }
}
