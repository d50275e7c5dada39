//! W-202 read once more, as slowly as it is written, on small tiles full of ties; and its laws.

use second::ground::{Cell, Ground, Size};
use second::lakes::{lakes, listed, split, Lake};
use second::network::network;

/// Small tiles with few heights, always the same ones. An outlet stands higher than most of its tile,
/// so that there are lakes.
fn small_tiles() -> Vec<Ground> {
    let mut state = 1_u64;
    let mut below = move |limit: u64| {
        state = state
            .wrapping_mul(6_364_136_223_846_793_005)
            .wrapping_add(1_442_695_040_888_963_407);
        (state >> 33) % limit
    };
    let mut tiles = Vec::new();
    for _ in 0..2_000 {
        let (width, height) = (1 + below(6) as usize, 1 + below(6) as usize);
        let cells = width * height;
        let heights = 1 + below(9);
        let mut ground = Ground {
            size: Size { width, height },
            heights: (0..cells).map(|_| below(heights) as i32 - 4).collect(),
            marks: vec![0; cells],
            water: vec![0; cells],
        };
        for _ in 0..1 + below(3) {
            let outlet = below(cells as u64) as usize;
            ground.marks[outlet] = 1;
            ground.heights[outlet] += below(9) as i32;
        }
        tiles.push(ground);
    }
    tiles
}

/// All cells that are joined with the first one, within these cells.
fn group_of_first(cells: &[Cell], size: Size) -> Vec<Cell> {
    let mut group = vec![cells[0]];
    loop {
        let touches = |cell: &&Cell| {
            let near = size.neighbours(**cell).any(|other| group.contains(&other));
            near && !group.contains(cell)
        };
        match cells.iter().find(touches) {
            Some(&cell) => group.push(cell),
            None => break,
        }
    }
    group.sort();
    group
}

/// The groups of these cells, taken out one after the other.
fn slow_groups(cells: &[Cell], size: Size) -> Vec<Vec<Cell>> {
    let mut left = cells.to_vec();
    let mut groups = Vec::new();
    while !left.is_empty() {
        let group = group_of_first(&left, size);
        left.retain(|cell| !group.contains(cell));
        groups.push(group);
    }
    groups
}

/// The lower groups of a lake and their level: every whole number below its level is tried, from the
/// greatest down.
fn slow_split(ground: &Ground, level: i32, cells: &[Cell]) -> Option<(i32, Vec<Vec<Cell>>)> {
    let heights = || cells.iter().map(|&cell| ground.height(cell));
    let lowest = heights().min().expect("a lake has a cell");
    (lowest..level).rev().find_map(|height| {
        let is_lower = |cell: &&Cell| ground.height(**cell) < height;
        let lower: Vec<Cell> = cells.iter().filter(is_lower).copied().collect();
        let groups = slow_groups(&lower, ground.size);
        (groups.len() >= 2).then_some((height, groups))
    })
}

/// A lake with the lakes inside it, as the text has it.
fn slow_lake(ground: &Ground, level: i32, cells: Vec<Cell>) -> Lake {
    let (height, groups) = slow_split(ground, level, &cells).unwrap_or_default();
    let above = |cell: &Cell| (level - ground.height(*cell)) as u64;
    Lake {
        level,
        inside: groups
            .into_iter()
            .map(|group| slow_lake(ground, height, group))
            .collect(),
        volume: cells.iter().map(above).sum(),
        cells,
    }
}

fn wet_cells(ground: &Ground, levels: &[i32]) -> Vec<Cell> {
    let is_wet = |cell: &Cell| levels[cell.index()] > ground.height(*cell);
    ground.cells().filter(is_wet).collect()
}

#[test]
fn lakes_are_those_of_the_text() {
    let mut deepest = 0;
    for ground in small_tiles() {
        let levels = network(&ground).levels;
        let wanted: Vec<Lake> = slow_groups(&wet_cells(&ground, &levels), ground.size)
            .into_iter()
            .map(|cells| slow_lake(&ground, levels[cells[0].index()], cells))
            .collect();
        deepest = wanted.iter().map(Lake::depth).fold(deepest, usize::max);
        assert_eq!(lakes(&ground), Ok(wanted));
    }
    assert!(deepest >= 4);
}

/// Heights between those of the cells are tried by the text alone.
#[test]
fn no_height_between_those_of_the_cells_is_missed() {
    for mut ground in small_tiles() {
        for height in &mut ground.heights {
            *height *= 3;
        }
        for lake in listed(&lakes(&ground).unwrap()) {
            let slow = slow_split(&ground, lake.level, &lake.cells);
            assert_eq!(split(&ground, &lake.cells), slow.map(|(height, _)| height));
        }
    }
}

#[test]
fn neighbouring_wet_cells_have_one_level() {
    for ground in small_tiles() {
        let levels = network(&ground).levels;
        let wet = wet_cells(&ground, &levels);
        for &cell in &wet {
            for other in ground
                .size
                .neighbours(cell)
                .filter(|other| wet.contains(other))
            {
                assert_eq!(levels[cell.index()], levels[other.index()]);
            }
        }
    }
}

#[test]
fn volumes_add_up() {
    for ground in small_tiles() {
        let levels = network(&ground).levels;
        let above = |cell: Cell| (levels[cell.index()] - ground.height(cell)) as u64;
        let all: u64 = ground.cells().map(above).sum();
        let of_lakes: u64 = lakes(&ground).unwrap().iter().map(|lake| lake.volume).sum();
        assert_eq!(of_lakes, all);
    }
}

#[test]
fn lakes_inside_hold_less_and_stand_lower() {
    for ground in small_tiles() {
        for lake in listed(&lakes(&ground).unwrap()) {
            assert_ne!(lake.inside.len(), 1);
            let cells: usize = lake.inside.iter().map(|inner| inner.cells.len()).sum();
            assert!(cells < lake.cells.len());
            let lower = lake.inside.iter().all(|inner| inner.level < lake.level);
            assert!(lower);
            let in_order = lake
                .inside
                .windows(2)
                .all(|two| two[0].least() < two[1].least());
            assert!(in_order);
        }
    }
}
