//! The adversarial tiles: 64 by 64, each family made to be slow. They are measured apart from the mix, tile by tile. Those here are for
//! the network; `slow_lakes.rs` has the families for lakes, `slow_diagonals.rs` those for 8 neighbours, and `slow_sheets.rs` those for sheets.

use compare::chance::Chance;
use compare::families;
use compare::outlets::{self, Outlets};
use compare::reliefs::{self, Relief};
use second::record;

use crate::slow_reliefs as slow;
use crate::tiles::{Tile, SIZE};

/// A family: its name, its land and its outlets.
pub struct Family {
    pub name: &'static str,
    relief: Relief,
    outlets: Outlets,
}

pub const fn family(name: &'static str, relief: Relief, outlets: Outlets) -> Family {
    Family {
        name,
        relief,
        outlets,
    }
}

/// All families. What each of them tries stands above its land.
pub const FAMILIES: [Family; 25] = [
    family("spiral stairs", reliefs::spiral_stair, outlets::one),
    family("spiral corridors", reliefs::spiral_corridor, outlets::one),
    family("combs", slow::comb, outlets::one),
    family(
        "one long chain",
        slow::serpentine,
        outlets::in_a_kind_of_place,
    ),
    family("checkerboards", reliefs::checkerboard, outlets::any),
    family("rough checkers", slow::rough_checkerboard, outlets::one),
    family("staircases", slow::staircase, outlets::any),
    family("sawtooth", slow::sawtooth, outlets::any),
    family(
        "steep slopes",
        slow::steep_slope,
        outlets::in_a_kind_of_place,
    ),
    family("unlike digits", slow::unlike_digits, outlets::one),
    family("bumps", slow::bumps, outlets::one),
    family("deep groups", slow::deep_groups, outlets::one),
    family("nested bowls", reliefs::nested_bowls, outlets::one),
    family("whole range", slow::whole_range, outlets::one),
    family("ends of range", reliefs::extremes, outlets::one),
    family("level", reliefs::level, outlets::in_a_kind_of_place),
    family("level, border", reliefs::level, outlets::border),
    family("level, many", reliefs::level, outlets::many),
    family("bumps, many", slow::bumps, outlets::many),
    family("checkers, many", slow::rough_checkerboard, outlets::many),
    family("digits, many", slow::unlike_digits, outlets::many),
    family("range, many", slow::whole_range, outlets::many),
    family("hills, many", reliefs::hills, outlets::many),
    family("hills, all", reliefs::hills, outlets::all),
    family("level, all", reliefs::level, outlets::all),
];

/// How many tiles each family has.
pub const TILES_OF_EACH: usize = 16;

/// The stream of chance that the tiles come from.
const SEED: u64 = 204;

/// All tiles of these families, one family after the other. Each call gives the same.
pub fn tiles_of(families: &[Family]) -> Vec<Tile> {
    let all = (0..families.len())
        .flat_map(|family| (0..TILES_OF_EACH).map(move |number| (family, number)));
    all.map(|(family, number)| tile(families, family, number))
        .collect()
}

/// One tile of a family.
fn tile(families: &[Family], family: usize, number: usize) -> Tile {
    let mut chance = Chance::of_case(SEED, (family * TILES_OF_EACH + number) as u64);
    let Family {
        relief, outlets, ..
    } = families[family];
    let ground = families::ground(&mut chance, SIZE, relief, outlets);
    Tile {
        family,
        record: record::bytes(&ground),
    }
}

/// What the tests of every list of families share.
#[cfg(test)]
pub mod testing {
    use super::{tiles_of, Family, TILES_OF_EACH};
    use second::ground::{Cell, Ground};
    use second::record;

    /// The tiles of one family of the list.
    pub fn grounds(families: &[Family], name: &str) -> Vec<Ground> {
        let number = families.iter().position(|family| family.name == name);
        let number = number.unwrap_or_else(|| panic!("no {name}"));
        let tiles = tiles_of(families).into_iter();
        let of_family = tiles.filter(|tile| tile.family == number);
        of_family
            .map(|tile| record::read(&tile.record).expect("a sound tile"))
            .collect()
    }

    /// The longest way along these receivers, in cells.
    pub fn longest_way(receivers: &[Cell]) -> usize {
        let next = |&at: &Cell| Some(receivers[at.index()]).filter(|&to| to != at);
        let cells = |start| std::iter::successors(Some(start), next).count();
        let starts = (0..receivers.len()).map(Cell::at);
        starts.map(cells).max().unwrap_or(0)
    }

    /// Every family has its tiles, and all are sound grounds.
    pub fn all_are_sound(families: &[Family]) {
        let tiles = tiles_of(families);
        assert_eq!(tiles.len(), families.len() * TILES_OF_EACH);
        for tile in tiles {
            let name = families[tile.family].name;
            assert!(record::check(&tile.record).is_ok(), "{name}");
        }
    }
}

#[cfg(test)]
mod tests {
    use super::*;

    #[test]
    fn every_tile_is_accepted_and_64_by_64() {
        for tile in tiles_of(&FAMILIES) {
            let ground = record::check(&tile.record);
            assert!(ground.is_ok(), "{}", FAMILIES[tile.family].name);
            assert_eq!(tile.record.len(), 7 * 4_096 + 16);
        }
    }

    #[test]
    fn the_same_tiles_come_each_time() {
        let records = |tiles: Vec<Tile>| -> Vec<Vec<u8>> {
            tiles.into_iter().map(|tile| tile.record).collect()
        };
        assert!(records(tiles_of(&FAMILIES)) == records(tiles_of(&FAMILIES)));
    }

    #[test]
    fn each_family_has_its_tiles() {
        for family in 0..FAMILIES.len() {
            let tiles = tiles_of(&FAMILIES);
            let count = tiles.iter().filter(|tile| tile.family == family).count();
            assert_eq!(count, TILES_OF_EACH);
        }
    }

    /// The longest way along the network of some tile of a family.
    fn longest_way(name: &str) -> usize {
        let family = FAMILIES
            .iter()
            .position(|family| family.name == name)
            .unwrap();
        (0..TILES_OF_EACH)
            .map(|number| longest_way_of(&tile(&FAMILIES, family, number)))
            .max()
            .unwrap()
    }

    fn longest_way_of(tile: &Tile) -> usize {
        let mut network = vec![0; 15 * 4_096 + 28];
        second::call(&tile.record, &mut network);
        let receiver = |cell: usize| {
            usize::from(u16::from_le_bytes([
                network[2 * cell],
                network[2 * cell + 1],
            ]))
        };
        let steps = |cell: usize| {
            std::iter::successors(Some(cell), |&at| Some(receiver(at)).filter(|&to| to != at))
                .count()
        };
        (0..4_096).map(steps).max().unwrap()
    }

    #[test]
    fn the_long_chain_is_long() {
        assert!(longest_way("one long chain") > 2_000);
        assert!(longest_way("spiral corridors") > 1_500);
    }
}
