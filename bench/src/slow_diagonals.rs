//! Land that is made to be slow with 8 neighbours, 64 by 64.

use compare::chance::Chance;
use compare::diagonal_families::{close_drops, ditches_and_dykes, two_colours};
use compare::outlets;
use compare::reliefs::each_cell;
use second::ground::{Size, HEIGHTS};

use crate::adversarial::{family, Family};

/// All families. What each of them tries stands above its land.
pub const FAMILIES: [Family; 8] = [
    family("close drops", close_drops, outlets::one),
    family("ditches and dykes", ditches_and_dykes, outlets::one),
    family("two colours", two_colours, outlets::one),
    family("pits apart", pits_apart, outlets::one),
    family("pits in rows", pits_in_rows, outlets::one),
    family("zigzag", zigzag, outlets::in_a_kind_of_place),
    family("pits, many", pits_apart, outlets::many),
    family("zigzag, many", zigzag, outlets::many),
];

/// A pit on every fourth cell, none of them at the corner of another, and between them heights of their own: as many basins as there
/// can be, and unlike crossings wherever there can be one.
fn pits_apart(chance: &mut Chance, size: Size) -> Vec<i32> {
    let span = chance.pick(&[3, 255, 4_095, 70_000, *HEIGHTS.end()]);
    each_cell(size, |row, column| match (row % 2, column % 2) {
        (0, 0) => 0,
        _ => chance.between(1, span),
    })
}

/// Pits in every second row, each row shifted against the last one, and high ground of two heights or a few between them: which
/// crossings are equally high can't be guessed.
fn pits_in_rows(chance: &mut Chance, size: Size) -> Vec<i32> {
    let highs = chance.pick(&[1, 2, 3, 5]);
    let far = chance.pick(&[1, 4_097]);
    each_cell(size, |row, column| {
        match (row % 2, (column + row / 2) % 2) {
            (0, 0) => -chance.between(0, 1),
            _ => far * chance.between(1, highs),
        }
    })
}

/// One river that only diagonals join, down and up again between two rows and back between the next two: the longest way that turns at
/// every cell. All else is wall.
fn zigzag(chance: &mut Chance, size: Size) -> Vec<i32> {
    let (upwards, fall) = (chance.one_in(2), chance.pick(&[1, 1, 0]));
    let wall = chance.pick(&[1_000_000, *HEIGHTS.end()]);
    let last = size.width as i32 - 1;
    let cells = (size.height as i32 / 3 + 1) * (size.width as i32 + 3);
    each_cell(size, |row, column| {
        let (lane, forth) = (row / 3, row / 3 % 2 == 0);
        let passed = if forth { column } else { last - column };
        let travelled = lane * (last + 3) + passed;
        let on_river = match row % 3 {
            2 => passed == last,
            side => side == column % 2 || passed == last,
        };
        match (on_river, upwards) {
            (true, true) => fall * travelled,
            (true, false) => fall * (cells - travelled),
            _ => wall,
        }
    })
}

#[cfg(test)]
mod tests {
    use super::*;
    use crate::adversarial::testing;
    use second::first_receivers::first_receivers;
    use second::ground::Ground;
    use second::manner::Manner;
    use second::neighbours::Neighbours;
    use second::network::network_by;

    fn grounds(name: &str) -> Vec<Ground> {
        testing::grounds(&FAMILIES, name)
    }

    #[test]
    fn every_tile_is_a_sound_ground() {
        testing::all_are_sound(&FAMILIES);
    }

    #[test]
    fn there_are_as_many_pits_as_there_can_be() {
        for ground in grounds("pits apart") {
            let first_receivers = first_receivers(Neighbours::Eight, &ground);
            let singular = first_receivers.iter().filter(|first| first.is_none());
            assert!(singular.count() >= 1_000);
        }
    }

    /// The longest way along the network over 8 neighbours, in cells.
    fn longest_way(ground: &Ground) -> usize {
        let network = network_by(Neighbours::Eight, Manner::Carve, ground);
        testing::longest_way(&network.receivers)
    }

    #[test]
    fn the_zigzag_is_long() {
        let longest = grounds("zigzag").iter().map(longest_way).max();
        assert!(longest > Some(1_000), "{longest:?}");
    }
}
