//! The benchmark's mix of tiles: 64 by 64, every second one largely level.

use compare::chance::Chance;
use compare::{families, outlets, reliefs};
use second::ground::Size;
use second::record;

/// The size of every tile.
pub const SIZE: Size = Size {
    width: 64,
    height: 64,
};

/// The families, largely level first.
pub const FAMILIES: [(&str, reliefs::Relief); 6] = [
    ("largely level", reliefs::largely_level),
    ("hills", reliefs::hills),
    ("random", reliefs::random),
    ("ties", reliefs::few_heights),
    ("ridges", reliefs::ridges),
    ("equal sills", reliefs::equal_sills),
];

/// One tile as a ground record, and the number of its family.
pub struct Tile {
    pub family: usize,
    pub record: Vec<u8>,
}

/// The tile with this index. The same index always gives the same tile.
pub fn tile(seed: u64, index: u64) -> Tile {
    let family = match index % 2 {
        0 => 0,
        _ => 1 + (index / 2) as usize % (FAMILIES.len() - 1),
    };
    let mut chance = Chance::of_case(seed, index);
    let ground = families::ground(&mut chance, SIZE, FAMILIES[family].1, outlets::any);
    Tile {
        family,
        record: record::bytes(&ground),
    }
}

#[cfg(test)]
mod tests {
    use super::*;

    #[test]
    fn half_of_the_tiles_are_largely_level() {
        let largely_level = (0..100).filter(|&index| tile(1, index).family == 0).count();
        assert_eq!(largely_level, 50);
    }

    #[test]
    fn every_tile_is_accepted() {
        for index in 0..200 {
            assert!(record::check(&tile(1, index).record).is_ok());
        }
    }
}
