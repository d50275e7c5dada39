//! W-205 by hand: where a sheet of water runs, and what stays as carving has it.

mod tiles;

use second::ground::Ground;
use second::manner::Manner::{self, Carve, Sheet};
use second::neighbours::Neighbours::{self, Eight, Four};
use second::network::{network, network_by, Network};
use second::text::text;
use second::{call, network_by_call, network_record, record};
use tiles::tile;

fn numbers(network: &Network) -> Vec<u16> {
    network.receivers.iter().map(|cell| cell.0).collect()
}

fn receivers(neighbours: Neighbours, manner: Manner, ground: &Ground) -> Vec<u16> {
    numbers(&network_by(neighbours, manner, ground))
}

/// A sheet's receivers with 4 neighbours.
fn sheet(ground: &Ground) -> Vec<u16> {
    receivers(Four, Sheet, ground)
}

/// So many rows and columns of one height.
fn level_ground(rows: usize, columns: usize, outlets: &[usize]) -> Ground {
    let row = vec![5; columns];
    tile(&vec![&row[..]; rows], outlets)
}

#[test]
fn of_two_ends_at_equal_distance_the_lesser_neighbour() {
    let along_a_row = tile(&[&[0, 5, 5, 5, 0]], &[0, 4]);
    assert_eq!(sheet(&along_a_row), [0, 0, 1, 4, 4]);
    let down_a_column = tile(&[&[0], &[5], &[5], &[5], &[0]], &[0, 4]);
    assert_eq!(sheet(&down_a_column), [0, 0, 1, 4, 4]);
    // Cell 4 is two steps from either end, over cells 3, 5 and 7: all of them count 1.
    let around_a_middle = tile(&[&[9, 9, 9], &[5, 5, 5], &[5, 5, 5], &[0, 5, 0]], &[9, 11]);
    assert_eq!(
        sheet(&around_a_middle),
        [3, 4, 5, 6, 3, 8, 9, 6, 11, 9, 9, 11]
    );
}

#[test]
fn the_fewest_steps_decide_and_not_the_least_number() {
    let nearer_to_the_right = tile(&[&[0, 5, 5, 5, 5, 5, 0]], &[0, 6]);
    assert_eq!(sheet(&nearer_to_the_right), [0, 0, 1, 2, 5, 6, 6]);
    assert_eq!(
        receivers(Four, Carve, &nearer_to_the_right),
        [0, 0, 1, 2, 3, 6, 6]
    );
}

#[test]
fn an_outlet_in_a_plateau_is_an_end() {
    assert_eq!(
        sheet(&level_ground(5, 5, &[12])),
        [
            1, 2, 7, 2, 3, //
            6, 7, 12, 7, 8, //
            11, 12, 12, 12, 13, //
            10, 11, 12, 13, 14, //
            15, 16, 17, 18, 19,
        ]
    );
    // Beside a lower neighbour it stays an outlet.
    let above_another = tile(&[&[0, 5, 5, 5]], &[0, 1]);
    assert_eq!(sheet(&above_another), [0, 1, 1, 2]);
}

#[test]
fn an_outlet_of_another_level_does_not_end_the_count() {
    let higher_outlet = tile(&[&[0, 5, 5, 5, 9]], &[0, 4]);
    assert_eq!(sheet(&higher_outlet), [0, 0, 1, 2, 4]);
    // Around the corner too, where there are corners.
    let at_a_corner = tile(&[&[0, 5, 5], &[9, 9, 5], &[9, 9, 9]], &[0, 4]);
    assert_eq!(
        receivers(Four, Sheet, &at_a_corner)[..6],
        [0, 0, 1, 0, 4, 2]
    );
    assert_eq!(receivers(Eight, Sheet, &at_a_corner)[5], 1);
}

#[test]
fn a_lower_neighbour_comes_before_an_outlet_of_the_same_level() {
    let between = tile(&[&[5, 5, 0]], &[0, 2]);
    assert_eq!(sheet(&between), [0, 2, 2]);
}

#[test]
fn a_lake_drains_to_its_sill_by_the_fewest_steps() {
    let lake = tile(
        &[
            &[9, 9, 9, 9, 9],
            &[9, 1, 4, 2, 9],
            &[9, 3, 1, 6, 0],
            &[9, 9, 9, 9, 9],
        ],
        &[14],
    );
    let network = network_by(Four, Sheet, &lake);
    assert_eq!(
        numbers(&network),
        [
            1, 6, 7, 8, 3, //
            6, 7, 8, 13, 14, //
            11, 12, 13, 14, 14, //
            10, 11, 12, 13, 14,
        ]
    );
    assert_eq!(network.levels[5..10], [9, 6, 6, 6, 9]);
    assert_eq!(network.levels[10..15], [9, 6, 6, 6, 0]);
    assert_eq!(network.wet[5..10], [0, 1, 1, 1, 0]);
    assert_eq!(network.wet[10..15], [0, 1, 1, 0, 0]);
}

/// Cell 2 has ground of height 1 on its right, under water of level 7, and ground of height 6 on its left.
#[test]
fn the_lowest_level_is_taken_and_not_the_lowest_ground() {
    let ground = tile(&[&[0, 6, 9, 1, 7, 0]], &[0, 5]);
    assert_eq!(sheet(&ground), [0, 0, 1, 4, 5, 5]);
    assert_eq!(receivers(Four, Carve, &ground), [0, 0, 3, 4, 5, 5]);
    let equally_low = tile(&[&[9, 3, 9], &[3, 9, 3], &[9, 3, 9]], &[1, 3, 5, 7]);
    assert_eq!(sheet(&equally_low)[4], 1);
}

#[test]
fn level_ground_with_one_outlet() {
    let ground = level_ground(3, 3, &[8]);
    assert_eq!(sheet(&ground), [1, 2, 5, 4, 5, 8, 7, 8, 8]);
    assert_eq!(
        receivers(Eight, Sheet, &ground),
        [4, 4, 4, 4, 8, 8, 4, 8, 8]
    );
}

/// From 9 over the corner to 3 is less steep than over the side to 4, and lower.
#[test]
fn with_8_neighbours_the_lowest_is_taken_and_not_the_steepest() {
    let ground = tile(&[&[3, 9, 9], &[9, 9, 4], &[9, 9, 9]], &[0, 5]);
    assert_eq!(receivers(Eight, Carve, &ground)[4], 5);
    assert_eq!(receivers(Eight, Sheet, &ground)[4], 0);
    assert_eq!(receivers(Four, Sheet, &ground)[4], 5);
}

/// A lake whose sill, cell 6, touches the outlet, cell 11, at a corner. Cell 1 touches the sill so too.
#[test]
fn with_8_neighbours_steps_go_over_corners() {
    let ground = tile(
        &[&[2, 2, 2, 9], &[2, 9, 5, 9], &[2, 9, 9, 0], &[2, 2, 9, 9]],
        &[11],
    );
    let network = network_by(Eight, Sheet, &ground);
    assert_eq!(network.levels[..4], [5, 5, 5, 9]);
    assert_eq!(numbers(&network)[..4], [1, 6, 6, 2]);
    assert_eq!(numbers(&network)[4..8], [1, 0, 11, 11]);
    assert_eq!(numbers(&network)[8], 4);
    assert_eq!(numbers(&network)[12..14], [8, 8]);
}

/// Sample D's ground, whose order and drainage follow the new receivers.
#[test]
fn order_and_drainage_follow_the_sheet() {
    let network = network_by(Four, Sheet, &level_ground(3, 3, &[0, 8]));
    let order: Vec<u16> = network.order.iter().map(|cell| cell.0).collect();
    let basins: Vec<u16> = network.basins.iter().map(|basin| basin.0).collect();
    assert_eq!(numbers(&network), [0, 0, 1, 0, 1, 8, 3, 8, 8]);
    assert_eq!(order, [0, 1, 2, 4, 3, 6, 8, 5, 7]);
    assert_eq!(network.drainage, [6, 3, 1, 2, 1, 1, 1, 1, 3]);
    assert_eq!(basins, [0, 1, 2, 3, 4, 5, 6, 7, 8]);
    assert_eq!(network.levels, [5; 9]);
    assert_eq!(network.wet, [0; 9]);
}

/// A winding corridor as long as one can be with 4 neighbours: each step is counted.
#[test]
fn a_long_corridor_is_followed_to_its_end() {
    let mut ground = level_ground(64, 64, &[0]);
    ground.heights.fill(9);
    for (row, cells) in ground.heights.chunks_mut(64).enumerate() {
        match row % 4 {
            0 | 2 => cells.fill(5),
            1 => cells[63] = 5,
            _ => cells[0] = 5,
        }
    }
    let network = network_by(Four, Sheet, &ground);
    let (mut cell, mut steps) = (64 * 62, 0);
    while cell != 0 {
        cell = network.receivers[cell].index();
        steps += 1;
    }
    // 32 rows, and 31 cells between them.
    assert_eq!(steps, 32 * 64 + 31 - 1);
    assert_eq!(network.drainage[0], 4_096);
}

/// The call writes the network asked for, and no byte past it.
#[test]
fn the_call_writes_what_is_asked_for() {
    let ground = tile(&[&[5, 5, 5], &[5, 5, 5], &[5, 5, 0]], &[8]);
    let bytes = record::bytes(&ground);
    for (count, neighbours) in [(4, Four), (8, Eight)] {
        for (number, manner) in [(1, Carve), (2, Sheet)] {
            let network = network_by(neighbours, manner, &ground);
            let mut wanted = network_record::bytes(&network, ground.size);
            let mut room = vec![0xA5; wanted.len() + 3];
            let answer = network_by_call(count, number, &bytes, &mut room);
            assert_eq!(answer as usize, wanted.len());
            wanted.extend([0xA5; 3]);
            assert_eq!(room, wanted);
        }
    }
}

/// Document 01's call and `drain` keep carving.
#[test]
fn what_is_not_asked_is_carved() {
    let ground = tile(&[&[0, 5, 5, 5, 5, 5, 0]], &[0, 6]);
    let bytes = record::bytes(&ground);
    let (mut of_call, mut carved) = ([0; 133], [0; 133]);
    assert_eq!(call(&bytes, &mut of_call), 133);
    assert_eq!(network_by_call(4, 1, &bytes, &mut carved), 133);
    assert_eq!(of_call, carved);
    assert_eq!(network(&ground), network_by(Four, Carve, &ground));
    assert!(text(&bytes).contains("\n4 3 5 "));
}
