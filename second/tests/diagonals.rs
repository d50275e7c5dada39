//! W-203 by hand: what 8 neighbours change, and what they leave as it was.

mod tiles;

use second::first_receivers::first_receivers;
use second::ground::{Cell, Ground};
use second::lakes::lakes;
use second::manner::Manner;
use second::neighbours::Neighbours::{self, Eight, Four};
use second::network::{self, Network};
use second::text::text;
use second::{call, network_by_call, network_record, record};
use tiles::tile;

/// The carved network.
fn network_by(neighbours: Neighbours, ground: &Ground) -> Network {
    network::network_by(neighbours, Manner::Carve, ground)
}

fn first_receiver(neighbours: Neighbours, ground: &Ground, cell: usize) -> Option<u16> {
    first_receivers(neighbours, ground)[cell].map(|receiver| receiver.0)
}

fn receivers(network: &Network) -> Vec<u16> {
    network.receivers.iter().map(|cell| cell.0).collect()
}

/// Whether the water of a cell takes the diagonal, with a straight drop and a diagonal one beside it.
/// All corners of a tile of 2 by 2 and both straight neighbours have to agree.
fn takes_diagonal(straight: i32, diagonal: i32) -> bool {
    let top = 8_000_000;
    let mut answers = Vec::new();
    for cell in 0..4 {
        let across = 3 - cell;
        for beside in (0..4).filter(|&beside| beside != cell && beside != across) {
            let mut ground = tile(&[&[top, top], &[top, top]], &[across]);
            ground.heights[across] -= diagonal;
            ground.heights[beside] -= straight;
            let receiver = first_receiver(Eight, &ground, cell).map(usize::from);
            assert!(receiver == Some(across) || receiver == Some(beside));
            answers.push(receiver == Some(across));
        }
    }
    answers.dedup();
    assert_eq!(answers.len(), 1, "{straight} {diagonal}");
    answers[0]
}

#[test]
fn the_diagonal_is_steeper_when_its_square_is_more_than_twice_the_other() {
    for (straight, diagonal, wanted) in [
        (1, 1, false),
        (1, 2, true),
        (2, 3, true),
        (3, 4, false),
        // 49 and 50
        (5, 7, false),
        (4, 7, true),
        (6, 7, false),
        (5, 6, false),
        (5, 8, true),
        // 289 and 288
        (12, 17, true),
        (11, 17, true),
        (13, 17, false),
        (12, 16, false),
        (12, 18, true),
        // 1,681 and 1,682
        (29, 41, false),
        (28, 41, true),
        (30, 41, false),
        (29, 40, false),
        (29, 42, true),
    ] {
        let found = takes_diagonal(straight, diagonal);
        assert_eq!(found, wanted, "{straight} and {diagonal}");
    }
}

/// Pell's pairs, each out of the one before: the squares differ by 1 only, now this way, now that.
#[test]
fn drops_are_compared_exactly_where_they_are_closest() {
    let (mut straight, mut diagonal, mut wanted) = (1, 1, false);
    let mut pairs = 0;
    while diagonal <= 16_000_000 {
        assert_eq!(takes_diagonal(straight, diagonal), wanted, "{straight}");
        assert!(takes_diagonal(straight, diagonal + 1));
        assert!(!takes_diagonal(straight + 1, diagonal));
        (straight, diagonal, wanted) = (straight + diagonal, 2 * straight + diagonal, !wanted);
        pairs += 1;
    }
    assert_eq!((straight, diagonal, pairs), (15_994_428, 22_619_537, 19));
}

#[test]
fn the_largest_drops_are_compared_exactly() {
    let largest = 16_000_000;
    assert!(takes_diagonal(11_313_708, largest));
    assert!(!takes_diagonal(11_313_709, largest));
    assert!(!takes_diagonal(largest, largest));
    assert!(!takes_diagonal(largest, largest - 1));
    assert!(takes_diagonal(1, largest));
    assert!(!takes_diagonal(largest, 1));
}

#[test]
fn equally_steep_ones_go_to_the_lesser_cell() {
    let four_diagonals = tile(&[&[1, 9, 1], &[9, 9, 9], &[1, 9, 1]], &[0]);
    assert_eq!(first_receiver(Eight, &four_diagonals, 4), Some(0));
    assert_eq!(first_receiver(Four, &four_diagonals, 4), None);
    let upper_right_and_lower_left = tile(&[&[2, 9, 1], &[9, 9, 9], &[1, 9, 2]], &[0]);
    assert_eq!(
        first_receiver(Eight, &upper_right_and_lower_left, 4),
        Some(2)
    );
    let lower_two = tile(&[&[9, 9, 9], &[9, 9, 9], &[1, 9, 1]], &[0]);
    assert_eq!(first_receiver(Eight, &lower_two, 4), Some(6));
    let four_sides = tile(&[&[9, 1, 9], &[1, 9, 1], &[9, 1, 9]], &[0]);
    assert_eq!(first_receiver(Eight, &four_sides, 4), Some(1));
    // A diagonal with the lesser number is as low as a straight one, and not as steep.
    let as_low = tile(&[&[1, 9, 9], &[9, 9, 9], &[9, 1, 9]], &[0]);
    assert_eq!(first_receiver(Eight, &as_low, 4), Some(7));
}

/// The lowest neighbour isn't always the steepest: from 9 to 3 over the corner is less steep than to 4
/// over the side.
#[test]
fn the_lowest_neighbour_is_not_always_taken() {
    let ground = tile(&[&[3, 9, 9], &[9, 9, 4], &[9, 9, 9]], &[0]);
    assert_eq!(first_receiver(Eight, &ground, 4), Some(5));
    let ground = tile(&[&[0, 9, 9], &[9, 9, 4], &[9, 9, 9]], &[0]);
    assert_eq!(first_receiver(Eight, &ground, 4), Some(0));
    assert_eq!(first_receiver(Four, &ground, 4), Some(5));
}

#[test]
fn an_outlet_with_a_lower_diagonal_has_no_receiver() {
    let ground = tile(&[&[5, 9], &[9, 0]], &[0]);
    assert_eq!(first_receiver(Eight, &ground, 0), None);
}

/// A stair over corners: five basins with 4 neighbours, and one with 8.
#[test]
fn pits_of_4_neighbours_drain_over_corners() {
    let ground = tile(&[&[0, 9, 9], &[9, 3, 9], &[9, 9, 6]], &[0]);
    let four = network_by(Four, &ground);
    let eight = network_by(Eight, &ground);
    assert_eq!(receivers(&four), [0, 0, 1, 0, 1, 4, 3, 4, 5]);
    assert_eq!(four.levels, [0, 9, 9, 9, 9, 9, 9, 9, 9]);
    assert_eq!(four.wet, [0, 0, 0, 0, 1, 0, 0, 0, 1]);
    assert_eq!(receivers(&eight), [0, 0, 4, 0, 0, 4, 4, 4, 4]);
    assert_eq!(eight.levels, ground.heights);
    assert_eq!(eight.wet, [0; 9]);
    assert!(eight.basins.iter().all(|basin| basin.0 == 0));
}

/// The pit in cell 0 drains over a corner, from cell 1 to cell 5 at height 4, and with 4 neighbours over
/// a side, from cell 1 to cell 2 at height 8.
#[test]
fn passes_go_over_corners() {
    let ground = tile(&[&[1, 4, 8], &[8, 8, 3], &[9, 9, 0]], &[8]);
    let eight = network_by(Eight, &ground);
    assert_eq!(receivers(&eight), [1, 5, 5, 0, 8, 8, 3, 8, 8]);
    assert_eq!(eight.levels, [4, 4, 8, 8, 8, 3, 9, 9, 0]);
    let four = network_by(Four, &ground);
    assert_eq!(receivers(&four)[..3], [1, 2, 5]);
    assert_eq!(four.levels[..3], [8, 8, 8]);
}

/// Sample D's ground. All crossings are equally high, so their cells decide.
#[test]
fn level_ground_with_8_neighbours() {
    let row: &[i32] = &[0; 3];
    let ground = tile(&[row; 3], &[0, 8]);
    let network = network_by(Eight, &ground);
    let order: Vec<u16> = network.order.iter().map(|cell| cell.0).collect();
    assert_eq!(receivers(&network), [0, 0, 1, 0, 0, 1, 3, 3, 8]);
    assert_eq!(order, [0, 1, 2, 5, 3, 6, 7, 4, 8]);
    assert_eq!(network.drainage, [8, 3, 1, 3, 1, 1, 1, 1, 1]);
    assert_eq!(network.levels, [0; 9]);
    assert_eq!(network.wet, [0; 9]);
}

/// A tile one cell wide or high has no corners to go over.
#[test]
fn one_row_is_the_same_with_both_counts() {
    let heights = [7, 1, 3, 2, 5, 0, 4, 4, 1];
    let row = tile(&[&heights], &[0, 5]);
    let rows = heights.map(|height| [height]);
    let column = tile(&rows.each_ref().map(|row| &row[..]), &[0, 5]);
    for ground in [row, column] {
        assert_eq!(network_by(Four, &ground), network_by(Eight, &ground));
    }
}

/// The call writes the network asked for, and no byte past it.
#[test]
fn the_call_writes_what_is_asked_for() {
    let ground = tile(&[&[0, 9, 9], &[9, 3, 9], &[9, 9, 6]], &[0]);
    let bytes = record::bytes(&ground);
    for (count, neighbours) in [(4, Four), (8, Eight)] {
        let mut wanted = network_record::bytes(&network_by(neighbours, &ground), ground.size);
        let mut room = vec![0xA5; wanted.len() + 3];
        let answer = network_by_call(count, 1, &bytes, &mut room);
        assert_eq!(answer as usize, wanted.len());
        wanted.extend([0xA5; 3]);
        assert_eq!(room, wanted);
    }
}

/// Document 01's call and `drain` keep 4 neighbours, and so do W-202's lakes.
#[test]
fn what_is_not_asked_keeps_4() {
    let ground = tile(&[&[0, 9, 9], &[9, 3, 9], &[9, 9, 6]], &[0]);
    let bytes = record::bytes(&ground);
    let (mut of_call, mut with_4) = ([0; 163], [0; 163]);
    assert_eq!(call(&bytes, &mut of_call), 163);
    assert_eq!(network_by_call(4, 1, &bytes, &mut with_4), 163);
    assert_eq!(of_call, with_4);
    assert!(text(&bytes).contains("\n4 1 9 "));
    let least: Vec<Cell> = lakes(&ground)
        .unwrap()
        .iter()
        .map(|lake| lake.least())
        .collect();
    assert_eq!(least, [Cell(4), Cell(8)]);
}
