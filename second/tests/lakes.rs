//! Lakes by hand: the list of each sample as text and as bytes, and the refusals of the call.

mod tiles;

use second::ground::{Ground, Size};
use second::lakes_text::text;
use second::{lakes_call, record};
use tiles::tile;

/// What is printed for a tile one cell high whose first cell is its outlet.
fn printed_row(heights: &[i32]) -> String {
    printed(&tile(&[heights], &[0]))
}

fn printed(ground: &Ground) -> String {
    text(&record::bytes(ground))
}

/// The call's answer and its room, which was all 0xA5. Says too that a refusal leaves it so.
fn called(ground: &Ground, room: usize) -> (u32, Vec<u8>) {
    let mut room = vec![0xA5; room];
    let answer = lakes_call(&record::bytes(ground), &mut room);
    if answer >= 65_536 {
        assert!(room.iter().all(|&byte| byte == 0xA5));
    }
    (answer, room)
}

#[test]
fn a_lake_of_one_cell() {
    assert_eq!(printed_row(&[4, -3]), "lakes 1\n4 1 7 1\n");
}

#[test]
fn no_lakes_are_a_list_of_none() {
    assert_eq!(printed_row(&[0, 1, 2]), "lakes 0\n");
    assert_eq!(printed_row(&[5]), "lakes 0\n");
    assert_eq!(called(&tile(&[&[0, 1, 2]], &[0]), 0), (0, vec![]));
}

/// Sample B: two lakes at two levels. Sample G: one that splits.
#[test]
fn samples_of_document_01() {
    assert_eq!(printed_row(&[0, 3, 1, 4, 2]), "lakes 2\n3 1 2 2\n4 1 2 4\n");
    let sample_g = tile(&[&[7, 1, 3, 2, 5, 0]], &[0, 5]);
    assert_eq!(printed(&sample_g), "lakes 3\n3 1 2 1\n3 1 1 3\n5 3 9 1\n");
}

/// At 5 the lake is two; the first of them is two again, at 3.
#[test]
fn lakes_nest_and_the_inner_ones_come_first() {
    assert_eq!(
        printed_row(&[9, 1, 3, 2, 5, 0]),
        "lakes 5\n3 1 2 1\n3 1 1 3\n5 3 9 1\n5 1 5 5\n9 5 34 1\n"
    );
}

/// Both sills are 5, so that all three groups are there at once.
#[test]
fn three_groups_at_one_height() {
    assert_eq!(
        printed_row(&[9, 1, 5, 2, 5, 3]),
        "lakes 4\n5 1 4 1\n5 1 3 3\n5 1 2 5\n9 5 29 1\n"
    );
}

/// A split at 3 is there too, and 6 is greater.
#[test]
fn the_greatest_height_counts() {
    assert_eq!(
        printed_row(&[9, 1, 3, 1, 6, 2]),
        "lakes 5\n3 1 2 1\n3 1 2 3\n6 3 13 1\n6 1 4 5\n9 5 32 1\n"
    );
}

/// The sill between the pits is as wide as two cells, and neither is in a group.
#[test]
fn cells_at_the_height_are_in_no_group() {
    assert_eq!(
        printed_row(&[9, 1, 5, 5, 2]),
        "lakes 3\n5 1 4 1\n5 1 3 4\n9 4 23 1\n"
    );
}

#[test]
fn a_meadow_beside_a_lake_is_no_part_of_it() {
    assert_eq!(printed_row(&[5, 5, 5, 3, 5]), "lakes 1\n5 1 2 3\n");
}

#[test]
fn lakes_that_touch_at_a_corner_are_two() {
    let corner = tile(&[&[1, 5, 5], &[5, 2, 5], &[5, 5, 5]], &[1]);
    assert_eq!(printed(&corner), "lakes 2\n5 1 4 0\n5 1 3 4\n");
}

/// A lake's least cell may be far from where most of it lies.
#[test]
fn outermost_lakes_come_by_least_cell() {
    let rows: [&[i32]; 3] = [&[9, 9, 9, 9, 4], &[9, 1, 9, 9, 4], &[9, 4, 4, 4, 4]];
    let one = tile(&rows, &[0]);
    assert_eq!(printed(&one), "lakes 1\n9 7 38 4\n");
    let rows: [&[i32]; 3] = [&[9, 9, 9, 9, 4], &[1, 9, 9, 9, 4], &[9, 9, 3, 4, 4]];
    let two = tile(&rows, &[1]);
    assert_eq!(printed(&two), "lakes 2\n9 5 26 4\n9 1 8 5\n");
}

/// All cells but one at the lowest height, and the outlet at the greatest: 11 times 16,000,000 is
/// below 32 bits, 4,095 times is far above.
#[test]
fn volumes_pass_32_bits() {
    for (width, height, volume) in [(4, 3, 176_000_000_u64), (64, 64, 65_520_000_000)] {
        let mut ground = Ground {
            size: Size { width, height },
            heights: vec![-8_000_000; width * height],
            marks: vec![0; width * height],
            water: vec![0; width * height],
        };
        ground.heights[0] = 8_000_000;
        ground.marks[0] = 1;
        let cells = width * height - 1;
        let wanted = format!("lakes 1\n8000000 {cells} {volume} 1\n");
        assert_eq!(printed(&ground), wanted);
    }
}

/// Sample F, byte for byte: level 4, one cell, least cell 0, volume 7. What is past it stays.
#[test]
fn a_lake_is_16_bytes() {
    let sample_f = tile(&[&[-3, 4]], &[1]);
    let mut wanted = vec![4, 0, 0, 0, 1, 0, 0, 0, 7, 0, 0, 0, 0, 0, 0, 0];
    assert_eq!(called(&sample_f, 16), (1, wanted.clone()));
    wanted.extend([0xA5; 17]);
    assert_eq!(called(&sample_f, 33), (1, wanted));
    assert_eq!(called(&sample_f, 15).0, 3 * 65_536);
}

/// A corridor that winds down a tile 12 cells wide, behind a small lake in the first row: an outlet,
/// then so many pits with sills between them that rise towards the outlet.
fn corridor(pits: usize) -> Ground {
    const WALL: i32 = 10_000;
    let rows = 2 + 2 * (2 * pits).div_ceil(13).max(1);
    let mut ground = tile(&vec![&[WALL; 12][..]; rows], &[0, 24]);
    (ground.heights[0], ground.heights[1]) = (5, 1);
    let path = (2..rows).flat_map(|row| {
        let across: Vec<usize> = match row % 4 {
            2 => (0..12).collect(),
            3 => vec![11],
            0 => (0..12).rev().collect(),
            _ => vec![0],
        };
        across.into_iter().map(move |column| row * 12 + column)
    });
    for (place, cell) in path.take(2 * pits).enumerate() {
        ground.heights[cell] = match place % 2 {
            0 => (pits - place / 2) as i32,
            _ => 0,
        };
    }
    ground
}

#[test]
fn a_lake_may_be_64_deep() {
    let (answer, _) = called(&corridor(64), 65_536);
    // The small lake, and 64 pits with 63 splits among them.
    assert_eq!(answer, 1 + 127);
    let text = printed(&corridor(64));
    assert!(text.starts_with("lakes 128\n5 1 4 1\n"));
    assert!(text.ends_with("\n64 127 6112 25\n"), "{text}");
}

#[test]
fn a_deeper_lake_is_refused_at_its_least_cell() {
    for pits in [65, 66, 150] {
        assert_eq!(called(&corridor(pits), 65_536).0, 10 * 65_536 + 25);
        assert_eq!(printed(&corridor(pits)), "refused 10 25\n");
    }
}

#[test]
fn depth_is_judged_before_the_room() {
    assert_eq!(called(&corridor(65), 0).0, 10 * 65_536 + 25);
    assert_eq!(called(&corridor(64), 0).0, 3 * 65_536);
    assert_eq!(called(&corridor(64), 16 * 128 - 1).0, 3 * 65_536);
    assert_eq!(called(&corridor(64), 16 * 128).0, 128);
}

#[test]
fn the_ground_is_judged_before_the_depth() {
    let mut ground = corridor(65);
    ground.marks = vec![0; ground.marks.len()];
    assert_eq!(called(&ground, 0).0, 6 * 65_536);
    ground.marks[7] = 2;
    assert_eq!(called(&ground, 0).0, 5 * 65_536 + 7);
    ground.heights[30] = 8_000_001;
    assert_eq!(called(&ground, 0).0, 4 * 65_536 + 30);
}

/// As with `drain`, 28,688 zero bytes name the width 0, and one byte more is refused before that.
/// The call has no such rule.
#[test]
fn the_program_refuses_an_input_that_is_too_long() {
    assert_eq!(text(&[0; 28_688]), "refused 1 0\n");
    assert_eq!(text(&[0; 28_689]), "refused 2 0\n");
    assert_eq!(lakes_call(&[0; 28_689], &mut []), 65_536);
    assert_eq!(lakes_call(&[], &mut []), 2 * 65_536);
}
