//! Families of sound grounds that are made for diagonals.

use second::ground::{Ground, Size, HEIGHTS};

use crate::chance::Chance;
use crate::families::{family, ground, sides, Family};
use crate::outlets;
use crate::reliefs::{self, base, each_cell, Relief};

/// Every family that is made for diagonals.
pub const DIAGONAL_FAMILIES: [Family; 3] = [
    family("close drops", |chance| of_relief(chance, close_drops)),
    family("ditches and dykes", |chance| {
        of_relief(chance, ditches_and_dykes)
    }),
    family("two colours", |chance| of_relief(chance, two_colours)),
];

/// A size that has diagonals, small ones more often.
fn of_relief(chance: &mut Chance, relief: Relief) -> Ground {
    let size = match chance.below(20) {
        0 => sides(chance, 20, 64),
        1..=9 => sides(chance, 8, 16),
        10..=16 => sides(chance, 4, 8),
        _ => sides(chance, 2, 4),
    };
    ground(chance, size, relief, outlets::any)
}

/// A straight and a diagonal drop, one of Pell's pairs: b times b and twice a times a are 1 apart, now
/// this way, now that, so that no pairs of their size are closer.
fn closest_pair(chance: &mut Chance) -> (i32, i32) {
    let (mut straight, mut diagonal) = (1, 1);
    // The last one is 6,625,109 and 9,369,319. The next one is out of range.
    for _ in 0..chance.below(19) {
        (straight, diagonal) = (straight + diagonal, 2 * straight + diagonal);
    }
    (straight, diagonal)
}

/// Hilltops three cells apart, each with eight neighbours of its own: most straight ones are lower by
/// one drop, most diagonal ones by another that is nearly as steep, or was before it was one off.
pub fn close_drops(chance: &mut Chance, size: Size) -> Vec<i32> {
    let top = chance.pick(&[*HEIGHTS.end(), 2_000_000]);
    let (down, across) = (chance.between(0, 2), chance.between(0, 2));
    let columns = size.width / 3 + 2;
    let hills: Vec<(i32, i32)> = (0..columns * (size.height / 3 + 2))
        .map(|_| {
            let (straight, diagonal) = closest_pair(chance);
            let mut off = || chance.pick(&[0, 0, 0, 0, 0, 0, 1, -1]);
            (straight + off(), diagonal + off())
        })
        .collect();
    each_cell(size, |row, column| {
        let (row, column) = ((row + down) as usize, (column + across) as usize);
        let (straight, diagonal) = hills[row / 3 * columns + column / 3];
        let drop = match (row % 3 == 1, column % 3 == 1) {
            (true, true) => 0,
            (false, false) => diagonal,
            _ => straight,
        };
        match chance.one_in(4) {
            true => top - chance.between(0, drop),
            false => top - drop,
        }
    })
}

/// Level ground crossed by ditches along diagonals, level or falling, filled in here and there; or by
/// dykes, which hold water between two of their cells only without diagonals.
pub fn ditches_and_dykes(chance: &mut Chance, size: Size) -> Vec<i32> {
    let base = base(chance);
    let apart = chance.between(2, 7);
    let (one_way, other_way) = chance.pick(&[(true, false), (false, true), (true, true)]);
    let rise = chance.pick(&[-1, -1, 1]) * chance.between(1, 300);
    let fall = chance.pick(&[0, 0, 1, -1, 3]);
    let gaps = 4 + chance.below(40);
    each_cell(size, |row, column| {
        let on_one = one_way && (row + column) % apart == 0;
        let on_other = other_way && (row - column) % apart == 0;
        match (on_one || on_other) && !chance.one_in(gaps) {
            true => base + rise + fall * row,
            false => base,
        }
    })
}

/// A checkerboard whose low cells are a land of their own, which only diagonals join. The high ones are
/// as high as heights go, or nearly.
pub fn two_colours(chance: &mut Chance, size: Size) -> Vec<i32> {
    let land = chance.pick(&[
        reliefs::random as Relief,
        reliefs::few_heights,
        reliefs::largely_level,
        reliefs::nested_bowls,
        reliefs::slope,
        reliefs::hills,
        reliefs::extremes,
    ]);
    let low = land(chance, size);
    let (colour, roughness) = (chance.between(0, 1), chance.pick(&[0, 0, 2, 900]));
    each_cell(size, |row, column| match (row + column) % 2 == colour {
        true => *HEIGHTS.end() - chance.between(0, roughness),
        false => low[row as usize * size.width + column as usize],
    })
}

#[cfg(test)]
mod tests {
    use super::*;
    use crate::families::testing;
    use second::first_receivers::{first_receivers, steepness};
    use second::ground::Cell;
    use second::manner::Manner;
    use second::neighbours::Neighbours;
    use second::network::network_by;
    use std::collections::HashMap;

    /// So many tiles of a family.
    fn tiles(name: &str, count: u64) -> Vec<Ground> {
        testing::tiles(&DIAGONAL_FAMILIES, name, count)
    }

    #[test]
    fn every_tile_is_a_sound_ground() {
        testing::all_are_sound(&DIAGONAL_FAMILIES, 200);
    }

    #[test]
    fn diagonals_make_a_difference() {
        for family in &DIAGONAL_FAMILIES {
            let differs = |ground: &&Ground| {
                let [four, eight] = Neighbours::BOTH
                    .map(|neighbours| network_by(neighbours, Manner::Carve, ground));
                four.receivers != eight.receivers && four.levels != eight.levels
            };
            let differing = tiles(family.name, 200).iter().filter(differs).count();
            assert!(differing > 80, "{}: {differing}", family.name);
        }
    }

    /// Of a cell's steepest straight and steepest diagonal neighbour either is steeper by 1 often enough,
    /// among small drops and among those whose squares are more than 32 bits.
    #[test]
    fn drops_are_as_close_as_can_be() {
        let mut times: HashMap<(u64, bool), u32> = HashMap::new();
        for ground in tiles("close drops", 200) {
            let first_receivers = first_receivers(Neighbours::Eight, &ground);
            for (cell, receiver) in ground.cells().zip(first_receivers) {
                let is_lower = |other: &Cell| ground.height(*other) < ground.height(cell);
                let steepness = |other: Cell| steepness(&ground, cell, other);
                let steepest = receiver.map_or(0, steepness);
                let mut lower = Neighbours::Eight.of(cell, ground.size).filter(is_lower);
                if lower.any(|other| steepness(other) + 1 == steepest) {
                    // Twice the square of a straight drop is even, so one more is a diagonal's.
                    *times.entry((steepest % 2, steepest > 1 << 32)).or_default() += 1;
                }
            }
        }
        for kind in [(0, false), (0, true), (1, false), (1, true)] {
            assert!(times[&kind] > 30, "{times:?}");
        }
    }
}
