//! Families of sound grounds: which size, which relief, which outlets, which water.

use second::ground::{Ground, Size};

use crate::chance::Chance;
use crate::outlets::{self, Outlets};
use crate::reliefs::{self, Relief};

/// A family of grounds that are all accepted.
pub struct Family {
    pub name: &'static str,
    pub make: fn(&mut Chance) -> Ground,
}

/// Every family of sound grounds.
pub const FAMILIES: [Family; 22] = [
    family("random", |chance| of_relief(chance, reliefs::random)),
    family("ties", |chance| of_relief(chance, reliefs::few_heights)),
    family("level", |chance| of_relief(chance, reliefs::level)),
    family("largely level", |chance| {
        of_relief(chance, reliefs::largely_level)
    }),
    family("nested bowls", |chance| {
        of_relief(chance, reliefs::nested_bowls)
    }),
    family("equal sills", |chance| {
        of_relief(chance, reliefs::equal_sills)
    }),
    family("ridges", |chance| of_relief(chance, reliefs::ridges)),
    family("slopes", |chance| of_relief(chance, reliefs::slope)),
    family("hills", |chance| of_relief(chance, reliefs::hills)),
    family("extremes", extremes),
    family("checkerboards", |chance| {
        of_relief(chance, reliefs::checkerboard)
    }),
    family("spiral stairs", |chance| {
        of_relief(chance, reliefs::spiral_stair)
    }),
    family("spiral corridors", |chance| {
        of_relief(chance, reliefs::spiral_corridor)
    }),
    family("inner outlets", |chance| of_outlets(chance, outlets::inner)),
    family("border outlets", |chance| {
        of_outlets(chance, outlets::border)
    }),
    family("all outlets", |chance| of_outlets(chance, outlets::all)),
    family("one outlet, each place", |chance| {
        of_outlets(chance, outlets::in_a_kind_of_place)
    }),
    family("one cell wide", |chance| {
        let height = 1 + chance.below(64);
        of_size(chance, Size { width: 1, height })
    }),
    family("one cell high", |chance| {
        let width = 1 + chance.below(64);
        of_size(chance, Size { width, height: 1 })
    }),
    family("1 by 1", |chance| {
        let (width, height) = (1, 1);
        of_size(chance, Size { width, height })
    }),
    family("3 by 3", |chance| {
        let (width, height) = (3, 3);
        of_size(chance, Size { width, height })
    }),
    family("64 by 64", |chance| {
        let (width, height) = (64, 64);
        of_size(chance, Size { width, height })
    }),
];

pub const fn family(name: &'static str, make: fn(&mut Chance) -> Ground) -> Family {
    Family { name, make }
}

/// Any size, small ones far more often: they are quick, and most faults show in them.
pub fn any_size(chance: &mut Chance) -> Size {
    let limit = match chance.below(40) {
        0 => 64,
        1..=5 => 20,
        6..=14 => 10,
        _ => 5,
    };
    Size {
        width: 1 + chance.below(limit),
        height: 1 + chance.below(limit),
    }
}

/// Width and height, each between the two.
pub fn sides(chance: &mut Chance, least: usize, greatest: usize) -> Size {
    let mut side = || least + chance.below(greatest - least + 1);
    Size {
        width: side(),
        height: side(),
    }
}

/// A ground of any family, for damage to start from.
pub fn any_ground(chance: &mut Chance) -> Ground {
    let size = any_size(chance);
    of_size(chance, size)
}

fn of_relief(chance: &mut Chance, relief: Relief) -> Ground {
    let size = any_size(chance);
    ground(chance, size, relief, outlets::any)
}

fn of_outlets(chance: &mut Chance, outlets: Outlets) -> Ground {
    let size = any_size(chance);
    let relief = chance.pick(&reliefs::ALL);
    ground(chance, size, relief, outlets)
}

fn of_size(chance: &mut Chance, size: Size) -> Ground {
    let relief = chance.pick(&reliefs::ALL);
    ground(chance, size, relief, outlets::any)
}

/// The ends of both ranges at once.
fn extremes(chance: &mut Chance) -> Ground {
    let mut ground = of_relief(chance, reliefs::extremes);
    for water in &mut ground.water {
        *water = chance.pick(&[0, u16::MAX]);
    }
    ground
}

/// A ground put together from its parts.
pub fn ground(chance: &mut Chance, size: Size, relief: Relief, outlets: Outlets) -> Ground {
    let heights = relief(chance, size);
    let marks = outlets(chance, size);
    let water = water(chance, size);
    Ground {
        size,
        heights,
        marks,
        water,
    }
}

/// The same water everywhere, or any, or none in most cells.
pub fn water(chance: &mut Chance, size: Size) -> Vec<u16> {
    let kind = chance.below(5);
    (0..size.cells())
        .map(|_| match kind {
            0 => 1,
            1 => u16::MAX,
            2 => chance.pick(&[0, 0, 0, 1, 40_000]),
            _ => chance.number() as u16,
        })
        .collect()
}

/// What the tests of every list of families share.
#[cfg(test)]
pub mod testing {
    use super::{Chance, Family, Ground, Size};
    use second::record;

    /// Document 01's sample G.
    pub fn sample_g() -> Ground {
        Ground {
            size: Size {
                width: 6,
                height: 1,
            },
            heights: vec![7, 1, 3, 2, 5, 0],
            marks: vec![1, 0, 0, 0, 0, 1],
            water: vec![1; 6],
        }
    }

    /// So many tiles of a family of the list.
    pub fn tiles(families: &[Family], name: &str, count: u64) -> Vec<Ground> {
        let family = families.iter().find(|family| family.name == name);
        let make = family.unwrap_or_else(|| panic!("no {name}")).make;
        (0..count)
            .map(|index| make(&mut Chance::of_case(5, index)))
            .collect()
    }

    /// So many tiles of each family are sound grounds.
    pub fn all_are_sound(families: &[Family], count: u64) {
        for family in families {
            for ground in tiles(families, family.name, count) {
                let judged = record::check(&record::bytes(&ground));
                assert!(judged.is_ok(), "{}: {judged:?}", family.name);
            }
        }
    }
}
