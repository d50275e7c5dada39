//! Families of sound grounds that are made for sheets: much of each is level water or level ground.

use second::ground::{Ground, Size};

use crate::chance::Chance;
use crate::families::{family, ground, sides, water, Family};
use crate::outlets;
use crate::reliefs::{self, base, each_cell};

/// Every family that is made for sheets.
pub const SHEET_FAMILIES: [Family; 8] = [
    family("plateaus", |chance| {
        let size = any_size(chance);
        plateau(chance, size, &[-1, -1, -2, -300])
    }),
    family("outlets in a plateau", |chance| {
        let size = any_size(chance);
        plateau(chance, size, &[0, 0, 0, -1, 1, 40])
    }),
    family("level corridors", level_corridor),
    family("combs", comb),
    family("lakes behind sills", lake_behind_sills),
    family("terraces", terraces),
    family("marshes", |chance| {
        let size = any_size(chance);
        ground(chance, size, reliefs::few_heights, outlets::few)
    }),
    family("level, few outlets", |chance| {
        let size = any_size(chance);
        let outlets = chance.pick(&[outlets::few as outlets::Outlets, outlets::inner]);
        ground(chance, size, reliefs::level, outlets)
    }),
];

/// A size on which counts can be told from one another, small ones more often.
fn any_size(chance: &mut Chance) -> Size {
    match chance.below(30) {
        0 => sides(chance, 20, 64),
        1..=9 => sides(chance, 7, 14),
        10..=23 => sides(chance, 4, 8),
        _ => sides(chance, 1, 5),
    }
}

/// Level ground with some outlets, each higher by one of these. Here and there it has a hole that fills
/// with water, or a hill.
fn plateau(chance: &mut Chance, size: Size, rises: &[i32]) -> Ground {
    let height = base(chance);
    let rarity = chance.pick(&[4, 10, 60]);
    let mut tile = ground(chance, size, |_, size| vec![0; size.cells()], outlets::few);
    for (mark, ground) in tile.marks.iter().zip(&mut tile.heights) {
        *ground = height
            + match (mark, chance.one_in(rarity)) {
                (1, _) => chance.pick(rises),
                (_, true) => chance.pick(&[-2, -1, 1, 1, 5]),
                _ => 0,
            };
    }
    tile
}

/// A tile of walls, with these cells level between them and some of those outlets, or lower, or wet.
fn between_walls(chance: &mut Chance, size: Size, path: &[usize]) -> Ground {
    let height = base(chance);
    let mut tile = Ground {
        size,
        heights: vec![height + chance.pick(&[1, 9, 5_000]); size.cells()],
        marks: vec![0; size.cells()],
        water: water(chance, size),
    };
    let depth = chance.pick(&[0, 0, 3]);
    for &cell in path {
        tile.heights[cell] = height - chance.between(0, depth);
    }
    let (first, last) = (path[0], path[path.len() - 1]);
    let any = path[chance.below(path.len())];
    let (one, other) = ([first; 3], [last; 3]);
    let both = [first, last, last];
    let outlets = chance.pick(&[one, one, other, other, both, [first, any, last]]);
    for cell in outlets {
        tile.marks[cell] = 1;
        tile.heights[cell] = height + chance.pick(&[0, 0, -1, -4]);
    }
    tile
}

/// A winding corridor on one level: the greatest counts that a tile can have.
fn level_corridor(chance: &mut Chance) -> Ground {
    let size = match chance.below(6) {
        0 => sides(chance, 60, 64),
        1..=2 => sides(chance, 26, 34),
        _ => sides(chance, 3, 12),
    };
    let path = reliefs::spiral(size, 2);
    between_walls(chance, size, &path)
}

/// A back with teeth of one level, each as long as it comes: many ways of equal length.
fn comb(chance: &mut Chance) -> Ground {
    let size = any_size(chance);
    let apart = 2 + chance.below(2);
    let back = chance.below(size.height);
    let mut path = Vec::new();
    for column in 0..size.width {
        let (mut above, mut below) = (0, 0);
        if column % apart == 0 {
            above = chance.below(back + 1);
            below = chance.below(size.height - back);
        }
        let tooth = back - above..=back + below;
        path.extend(tooth.map(|row| row * size.width + column));
    }
    between_walls(chance, size, &path)
}

/// A lake with an uneven bottom behind a rim, which has some gaps of one height. Around it the land is
/// lower and has the outlets.
fn lake_behind_sills(chance: &mut Chance) -> Ground {
    let mut size = any_size(chance);
    size.width = size.width.max(5);
    size.height = size.height.max(5);
    let height = base(chance);
    let gaps = chance.pick(&[3, 8, 30]);
    let depth = chance.pick(&[0, 2, 500]);
    let (last_row, last_column) = (size.height as i32 - 1, size.width as i32 - 1);
    let mut tile = ground(
        chance,
        size,
        |_, size| vec![0; size.cells()],
        outlets::one_side,
    );
    tile.heights = each_cell(size, |row, column| {
        let from_border = row
            .min(column)
            .min(last_row - row)
            .min(last_column - column);
        height
            + match from_border {
                0 => -chance.between(600, 601),
                1 if chance.one_in(gaps) => 0,
                1 => 7,
                _ => -chance.between(0, depth),
            }
    });
    tile
}

/// Steps of level ground, with edges along rows, columns or diagonals, straight or crooked.
fn terraces(chance: &mut Chance) -> Ground {
    let size = any_size(chance);
    let height = base(chance);
    let (down, along) = chance.pick(&[(1, 0), (0, 1), (-1, 0), (0, -1), (1, 1), (-1, 1)]);
    let deep = chance.between(2, 6);
    let crooked = chance.pick(&[0, 1, 2]);
    let rise = chance.pick(&[1, 3, 256]);
    let mut tile = ground(chance, size, |_, size| vec![0; size.cells()], outlets::any);
    tile.heights = each_cell(size, |row, column| {
        let up = down * row + along * column + chance.between(0, crooked);
        height + rise * up.div_euclid(deep)
    });
    tile
}

#[cfg(test)]
mod tests {
    use super::*;
    use crate::families::testing;
    use second::manner::Manner;
    use second::neighbours::Neighbours;
    use second::network::network_by;

    /// So many tiles of a family.
    fn tiles(name: &str, count: u64) -> Vec<Ground> {
        testing::tiles(&SHEET_FAMILIES, name, count)
    }

    #[test]
    fn every_tile_is_a_sound_ground() {
        testing::all_are_sound(&SHEET_FAMILIES, 200);
    }

    #[test]
    fn the_manner_makes_a_difference() {
        for family in &SHEET_FAMILIES {
            for neighbours in Neighbours::BOTH {
                let differs = |ground: &&Ground| {
                    let [carved, sheet] =
                        Manner::BOTH.map(|manner| network_by(neighbours, manner, ground));
                    carved.receivers != sheet.receivers && carved.order != sheet.order
                };
                let differing = tiles(family.name, 200).iter().filter(differs).count();
                assert!(
                    differing > 60,
                    "{} {neighbours:?}: {differing}",
                    family.name
                );
            }
        }
    }

    /// How many steps the longest way over one level takes, with 4 neighbours.
    fn longest_level_way(ground: &Ground) -> usize {
        let network = network_by(Neighbours::Four, Manner::Sheet, ground);
        let mut steps = vec![0; network.receivers.len()];
        for cell in &network.order {
            let receiver = network.receivers[cell.index()];
            let is_level = network.levels[cell.index()] == network.levels[receiver.index()];
            if receiver != *cell && is_level {
                steps[cell.index()] = steps[receiver.index()] + 1;
            }
        }
        steps.into_iter().max().unwrap_or(0)
    }

    #[test]
    fn corridors_take_more_steps_than_a_byte_counts() {
        let ways = tiles("level corridors", 100);
        let longest: Vec<usize> = ways.iter().map(longest_level_way).collect();
        let longer_than = |steps: usize| longest.iter().filter(|&&one| one > steps).count();
        assert!(longer_than(255) > 10, "{longest:?}");
        assert!(longer_than(1_023) > 3, "{longest:?}");
    }

    #[test]
    fn lakes_come_and_stand_behind_several_sills() {
        let wet = |ground: &&Ground| {
            let network = network_by(Neighbours::Four, Manner::Sheet, ground);
            network.wet.iter().filter(|&&wet| wet == 1).count() > 3
        };
        assert!(tiles("lakes behind sills", 100).iter().filter(wet).count() > 30);
        assert!(tiles("marshes", 100).iter().filter(wet).count() > 20);
    }
}
