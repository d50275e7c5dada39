//! Families of sound grounds that are made for their lakes.

use second::ground::{Ground, Size, HEIGHTS};

use crate::chance::Chance;
use crate::families::{family, ground, sides, water, Family};
use crate::outlets;
use crate::reliefs::{self, Relief};

/// Every family that is made for lakes.
pub const LAKE_FAMILIES: [Family; 11] = [
    family("nested lakes", |chance| {
        let size = sides(chance, 5, 14);
        corridor(chance, size, usize::MAX, shuffled)
    }),
    family("sills of few heights", |chance| {
        let size = sides(chance, 3, 12);
        corridor(chance, size, usize::MAX, of_few_heights)
    }),
    family("about 64 deep", about_64_deep),
    family("far too deep", |chance| {
        let greatest = chance.pick(&[30, 30, 30, 64]);
        let size = sides(chance, 24, greatest);
        let sills = chance.pick(&[falling as Sills, rising]);
        corridor(chance, size, usize::MAX, sills)
    }),
    family("several lakes", |chance| {
        let width = 3 + chance.below(18);
        several(chance, width, |chance, width| {
            let height = 1 + chance.below(8);
            let sills = chance.pick(&[falling as Sills, rising, shuffled, of_few_heights]);
            corridor(chance, Size { width, height }, usize::MAX, sills)
        })
    }),
    family("several about 64 deep", |chance| {
        several(chance, 24, |chance, width| {
            let pits = chance.pick(&[10, 64, 65, 66, 66]);
            let sills = chance.pick(&[falling as Sills, rising]);
            corridor(chance, Size { width, height: 12 }, pits, sills)
        })
    }),
    family("thousands of pits", thousands_of_pits),
    family("no lakes", no_lakes),
    family("flat bottoms", |chance| {
        let relief = chance.pick(&[
            reliefs::few_heights as Relief,
            reliefs::largely_level,
            reliefs::equal_sills,
            reliefs::nested_bowls,
        ]);
        bowl(chance, relief)
    }),
    family("rough bottoms", |chance| {
        let relief = chance.pick(&[
            reliefs::random as Relief,
            reliefs::hills,
            reliefs::ridges,
            reliefs::checkerboard,
        ]);
        bowl(chance, relief)
    }),
    family("the ends of the range", ends_of_range),
];

/// How high the sills of a corridor are, from the outlet inwards: so many numbers from 1, none above
/// their count.
type Sills = fn(&mut Chance, usize) -> Vec<i32>;

/// The pit next to the outlet is the first to be a lake of its own, then the next one: a lake as deep
/// as it has pits.
fn falling(_: &mut Chance, count: usize) -> Vec<i32> {
    (1..=count as i32).rev().collect()
}

/// The same from the other end.
fn rising(_: &mut Chance, count: usize) -> Vec<i32> {
    (1..=count as i32).collect()
}

fn shuffled(chance: &mut Chance, count: usize) -> Vec<i32> {
    let mut sills = rising(chance, count);
    for place in (1..count).rev() {
        sills.swap(place, chance.below(place + 1));
    }
    sills
}

/// Equal ones among them, so that a lake splits into many at once.
fn of_few_heights(chance: &mut Chance, count: usize) -> Vec<i32> {
    let most = chance.between(1, 3).min(count as i32);
    (0..count).map(|_| chance.between(1, most)).collect()
}

/// A winding corridor between walls: an outlet, then pits with sills between them, at most so many
/// pits as are asked for. It is one lake.
fn corridor(chance: &mut Chance, size: Size, pits: usize, sills: Sills) -> Ground {
    let mut path = reliefs::spiral(size, 2);
    if chance.one_in(2) {
        path.reverse();
    }
    let pits = pits.min(path.len() / 2);
    let sills = sills(chance, pits.saturating_sub(1));
    let floor = chance.pick(&[0, 0, -3, 1_000, 7_000_000, *HEIGHTS.start() + 2]);
    let step = chance.pick(&[1, 1, 7, 900]);
    let top = floor + step * (pits as i32 + 1);
    let wall = top + chance.pick(&[0, 1, 50_000]);
    let mut tile = Ground {
        size,
        heights: vec![wall; size.cells()],
        marks: vec![0; size.cells()],
        water: water(chance, size),
    };
    tile.marks[path[0]] = 1;
    tile.heights[path[0]] = top;
    for (place, &cell) in path.iter().enumerate().take(2 * pits).skip(1) {
        tile.heights[cell] = match place % 2 {
            0 => floor + step * sills[place / 2 - 1],
            _ => floor - chance.between(0, 2),
        };
    }
    tile
}

fn about_64_deep(chance: &mut Chance) -> Ground {
    let size = sides(chance, 18, 22);
    let near = 58 + chance.below(12);
    let pits = chance.pick(&[63, 64, 64, 65, 65, 66, near]);
    let sills = chance.pick(&[falling as Sills, rising]);
    corridor(chance, size, pits, sills)
}

/// Two to four tiles of one width with a wall between them, each with its own outlet. They lie below
/// each other or side by side.
fn several(chance: &mut Chance, width: usize, part: fn(&mut Chance, usize) -> Ground) -> Ground {
    let mut all = part(chance, width);
    for _ in 0..1 + chance.below(3) {
        let next = part(chance, width);
        let wall = all.heights.iter().chain(&next.heights).copied().max();
        let wall = wall.expect("a tile has a cell");
        all.size.height += 1 + next.size.height;
        all.heights
            .extend([vec![wall; width], next.heights].concat());
        all.marks.extend([vec![0; width], next.marks].concat());
        all.water.extend([vec![0; width], next.water].concat());
    }
    match chance.one_in(2) {
        true => turned(&all),
        false => all,
    }
}

/// The tile with rows and columns exchanged.
fn turned(ground: &Ground) -> Ground {
    let Size { width, height } = ground.size;
    let cells = || (0..width).flat_map(|column| (0..height).map(move |row| row * width + column));
    Ground {
        size: Size {
            width: height,
            height: width,
        },
        heights: cells().map(|cell| ground.heights[cell]).collect(),
        marks: cells().map(|cell| ground.marks[cell]).collect(),
        water: cells().map(|cell| ground.water[cell]).collect(),
    }
}

/// A checkerboard on a large tile. Where all high cells are equal, every low one is a lake of its own.
fn thousands_of_pits(chance: &mut Chance) -> Ground {
    let size = match chance.one_in(2) {
        true => Size {
            width: 64,
            height: 64,
        },
        false => sides(chance, 30, 64),
    };
    let relief: Relief = |chance, size| {
        let highs = chance.pick(&[1, 1, 2, 4, 1_000]);
        reliefs::each_cell(size, |row, column| match (row + column) % 2 {
            0 => -chance.between(0, 3),
            _ => chance.between(1, highs),
        })
    };
    ground(chance, size, relief, outlets::few)
}

/// Ground without a climb: level, outlets only, or a slope down to the outlet in its corner.
fn no_lakes(chance: &mut Chance) -> Ground {
    let size = sides(chance, 1, 20);
    match chance.below(3) {
        0 => ground(chance, size, reliefs::level, outlets::any),
        1 => ground(chance, size, reliefs::random, outlets::all),
        _ => {
            let slope: Relief = |chance, size| {
                let (down, across) = (chance.between(0, 3), chance.between(0, 3));
                reliefs::each_cell(size, |row, column| down * row + across * column)
            };
            let corner: outlets::Outlets = |_, size| {
                let mut marks = vec![0; size.cells()];
                marks[0] = 1;
                marks
            };
            ground(chance, size, slope, corner)
        }
    }
}

/// Any land behind a rim of outlets that is higher than all of it, or as high as heights go.
fn bowl(chance: &mut Chance, relief: Relief) -> Ground {
    let size = match chance.below(12) {
        0 => sides(chance, 20, 64),
        1..=3 => sides(chance, 8, 20),
        _ => sides(chance, 3, 8),
    };
    let mut bowl = ground(chance, size, relief, outlets::border);
    let highest = bowl.heights.iter().copied().max();
    let rim = (highest.expect("a tile has a cell") + 1).min(*HEIGHTS.end());
    raise_outlets(&mut bowl, rim);
    bowl
}

/// The lowest ground behind the highest rim, sometimes with a ridge through it: volumes of more than
/// 32 bits.
fn ends_of_range(chance: &mut Chance) -> Ground {
    let size = match chance.one_in(6) {
        true => Size {
            width: 64,
            height: 64,
        },
        false => sides(chance, 20, 30),
    };
    let relief: Relief = |chance, size| {
        let ridge = chance.pick(&[i32::MAX, size.width as i32 / 2]);
        let roughness = chance.pick(&[0, 1, 1_000_000]);
        reliefs::each_cell(size, |_, column| match column == ridge {
            true => *HEIGHTS.end() - 1,
            false => *HEIGHTS.start() + chance.between(0, roughness),
        })
    };
    let outlets = chance.pick(&[outlets::border as outlets::Outlets, outlets::one]);
    let mut tile = ground(chance, size, relief, outlets);
    raise_outlets(&mut tile, *HEIGHTS.end());
    tile
}

fn raise_outlets(ground: &mut Ground, to: i32) {
    for (height, mark) in ground.heights.iter_mut().zip(&ground.marks) {
        if *mark == 1 {
            *height = to;
        }
    }
}

/// A ground with a lake that is far deeper than 64, for damage to start from: it may become two lakes,
/// and one is still too deep.
pub fn too_deep(chance: &mut Chance) -> Ground {
    let size = sides(chance, 26, 32);
    corridor(chance, size, usize::MAX, falling)
}

#[cfg(test)]
mod tests {
    use super::*;
    use crate::families::testing;
    use second::lakes::{lakes, listed, Lake};
    use second::refusal::Refusal;

    /// So many tiles of a family.
    fn tiles(name: &str, count: u64) -> Vec<Ground> {
        testing::tiles(&LAKE_FAMILIES, name, count)
    }

    #[test]
    fn every_tile_is_a_sound_ground() {
        testing::all_are_sound(&LAKE_FAMILIES, 30);
    }

    #[test]
    fn lakes_of_64_and_of_65_are_among_the_deep_ones() {
        let tiles = tiles("about 64 deep", 60);
        let all = || tiles.iter().map(lakes);
        let of_64 = |found: &Vec<Lake>| found.iter().any(|lake| lake.depth() == 64);
        assert!(all().any(|found| found.is_ok_and(|found| of_64(&found))));
        let of_63 = |found: &Vec<Lake>| found.iter().any(|lake| lake.depth() == 63);
        assert!(all().any(|found| found.is_ok_and(|found| of_63(&found))));
        assert!(all().any(|found| matches!(found, Err(Refusal::Depth(_)))));
        let mut chance = Chance::of_case(1, 1);
        assert!(lakes(&too_deep(&mut chance)).is_err());
    }

    /// A lake that is not too deep stands before the one that is.
    #[test]
    fn the_first_lake_is_not_always_the_one_that_is_too_deep() {
        let later = |ground: &Ground| match lakes(ground) {
            Err(Refusal::Depth(cell)) => {
                let first = ground.marks.iter().position(|&mark| mark == 1);
                cell.index() > first.unwrap() + 2 * ground.size.width
            }
            _ => false,
        };
        assert!(tiles("several about 64 deep", 40).iter().any(later));
    }

    #[test]
    fn there_are_two_thousand_pits() {
        let counts = tiles("thousands of pits", 20).into_iter().map(|ground| {
            let found = lakes(&ground).unwrap_or_default();
            listed(&found).len()
        });
        assert!(counts.max().unwrap() >= 2_000);
    }

    #[test]
    fn volumes_need_more_than_32_bits() {
        for ground in tiles("the ends of the range", 20) {
            if let Ok(found) = lakes(&ground) {
                assert!(found.iter().any(|lake| lake.volume > u64::from(u32::MAX)));
            }
        }
    }

    #[test]
    fn no_lakes_are_none() {
        for ground in tiles("no lakes", 40) {
            assert_eq!(lakes(&ground), Ok(vec![]));
        }
    }
}
