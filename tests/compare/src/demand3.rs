//! Demand 3 by brute force, on nothing but the ground, the neighbours asked for and the bytes that came
//! back, in whichever manner. Every way reaches an outlet, every level is the least that can be, and no
//! water is lost. Rule 10 is judged with it: a cell is wet exactly if every way out climbs above its
//! ground. So is a law across counts: no level with 8 neighbours is above that with 4.

use std::cmp::Reverse;
use std::collections::BinaryHeap;

use second::ground::{Cell, Ground};
use second::neighbours::Neighbours;

/// The sections that are judged.
struct Returned<'a> {
    receivers: Vec<usize>,
    levels: Vec<i32>,
    drainage: Vec<u32>,
    wet: &'a [u8],
}

/// Judges a network record that was returned for a ground. An error says what is wrong.
pub fn judge(neighbours: Neighbours, ground: &Ground, network: &[u8]) -> Result<(), String> {
    let returned = read(ground, network);
    let least = least_highest_points(neighbours, ground);
    judge_steps(neighbours, ground, &returned.receivers)?;
    judge_ways(ground, &returned.receivers, &least)?;
    judge_levels(&returned.levels, &least)?;
    judge_wet(ground, returned.wet, &least)?;
    judge_drainage(ground, &returned)?;
    match neighbours {
        Neighbours::Four => Ok(()),
        Neighbours::Eight => judge_across_counts(ground, &returned.levels),
    }
}

/// Reads four sections straight from their stretches of the record.
fn read<'a>(ground: &Ground, network: &'a [u8]) -> Returned<'a> {
    let cells = ground.size.cells();
    let receivers = network[..2 * cells]
        .chunks_exact(2)
        .map(|entry| usize::from(entry[0]) + 256 * usize::from(entry[1]))
        .collect();
    let four = |from: usize| {
        network[from * cells..(from + 4) * cells]
            .chunks_exact(4)
            .map(|entry| u32::from_le_bytes([entry[0], entry[1], entry[2], entry[3]]))
    };
    Returned {
        receivers,
        levels: four(6).map(|level| level as i32).collect(),
        drainage: four(10).collect(),
        wet: &network[14 * cells..15 * cells],
    }
}

/// Each step goes to a neighbour, and an outlet's receiver is itself.
fn judge_steps(neighbours: Neighbours, ground: &Ground, receivers: &[usize]) -> Result<(), String> {
    for cell in ground.cells() {
        let receiver = receivers[cell.index()];
        let allowed = match ground.is_outlet(cell) {
            true => receiver == cell.index(),
            false => neighbours
                .of(cell, ground.size)
                .any(|neighbour| neighbour.index() == receiver),
        };
        if !allowed {
            return Err(format!("cell {} can't receive to {receiver}", cell.0));
        }
    }
    Ok(())
}

/// From each cell the receivers lead to an outlet, over no cell twice, in no more steps than there
/// are cells that aren't outlets, and over no higher ground than any way has to have.
fn judge_ways(ground: &Ground, receivers: &[usize], least: &[i32]) -> Result<(), String> {
    let most_steps = ground.marks.iter().filter(|&&mark| mark == 0).count();
    let mut met_from = vec![usize::MAX; receivers.len()];
    for start in 0..receivers.len() {
        let (mut cell, mut steps) = (start, 0);
        let mut highest = ground.heights[start];
        met_from[cell] = start;
        while ground.marks[cell] == 0 {
            cell = receivers[cell];
            steps += 1;
            highest = highest.max(ground.heights[cell]);
            if met_from[cell] == start {
                return Err(format!("the way of cell {start} meets cell {cell} twice"));
            }
            met_from[cell] = start;
        }
        if steps > most_steps {
            return Err(format!("the way of cell {start} takes {steps} steps"));
        }
        if highest != least[start] {
            let least = least[start];
            return Err(format!(
                "the way of cell {start} climbs to {highest}, and {least} is enough"
            ));
        }
    }
    Ok(())
}

/// Each level is the least highest point of all ways over neighbours to any outlet.
fn judge_levels(levels: &[i32], least: &[i32]) -> Result<(), String> {
    match (0..levels.len()).find(|&cell| levels[cell] != least[cell]) {
        None => Ok(()),
        Some(cell) => Err(format!(
            "the level of cell {cell} is {}, and its least highest point {}",
            levels[cell], least[cell]
        )),
    }
}

/// A cell's entry is 1 where its least highest point is above its own ground, and 0 elsewhere.
fn judge_wet(ground: &Ground, wet: &[u8], least: &[i32]) -> Result<(), String> {
    let wanted = |cell: usize| u8::from(least[cell] > ground.heights[cell]);
    match (0..wet.len()).find(|&cell| wet[cell] != wanted(cell)) {
        None => Ok(()),
        Some(cell) => Err(format!(
            "the wet entry of cell {cell} is {}, its height {} and its least highest point {}",
            wet[cell], ground.heights[cell], least[cell]
        )),
    }
}

/// Spreads from the outlets, always on from the lowest point reached so far.
pub fn least_highest_points(neighbours: Neighbours, ground: &Ground) -> Vec<i32> {
    let mut found: Vec<Option<i32>> = vec![None; ground.size.cells()];
    let mut reached: BinaryHeap<Reverse<(i32, Cell)>> = ground
        .cells()
        .filter(|&cell| ground.is_outlet(cell))
        .map(|cell| Reverse((ground.height(cell), cell)))
        .collect();
    while let Some(Reverse((point, cell))) = reached.pop() {
        if found[cell.index()].is_some() {
            continue;
        }
        found[cell.index()] = Some(point);
        for neighbour in neighbours.of(cell, ground.size) {
            let beyond = point.max(ground.height(neighbour));
            reached.push(Reverse((beyond, neighbour)));
        }
    }
    found
        .into_iter()
        .map(|point| point.expect("every cell of a tile can be reached"))
        .collect()
}

/// With 8 neighbours there are all the ways that there are with 4, so no level is above the one that
/// these have.
fn judge_across_counts(ground: &Ground, levels: &[i32]) -> Result<(), String> {
    let with_4 = least_highest_points(Neighbours::Four, ground);
    match (0..levels.len()).find(|&cell| levels[cell] > with_4[cell]) {
        None => Ok(()),
        Some(cell) => Err(format!(
            "the level of cell {cell} is {} with 8 neighbours, and {} with 4",
            levels[cell], with_4[cell]
        )),
    }
}

/// Each cell passes on its own water and all that it receives; the outlets get all there is.
fn judge_drainage(ground: &Ground, returned: &Returned) -> Result<(), String> {
    let water = || ground.water.iter().map(|&water| u64::from(water));
    let mut wanted: Vec<u64> = water().collect();
    for (cell, &receiver) in returned.receivers.iter().enumerate() {
        if receiver != cell {
            wanted[receiver] += u64::from(returned.drainage[cell]);
        }
    }
    for (cell, &wanted) in wanted.iter().enumerate() {
        let found = returned.drainage[cell];
        if u64::from(found) != wanted {
            return Err(format!(
                "the drainage of cell {cell} is {found}, not {wanted}"
            ));
        }
    }
    let total: u64 = water().sum();
    let out: u64 = ground
        .cells()
        .filter(|&cell| ground.is_outlet(cell))
        .map(|cell| u64::from(returned.drainage[cell.index()]))
        .sum();
    match out == total {
        true => Ok(()),
        false => Err(format!("the outlets drain {out} of {total}")),
    }
}

#[cfg(test)]
mod tests {
    use super::*;
    use crate::families::testing::sample_g as ground;
    use second::ground::Size;

    fn network(receivers: [u16; 6], levels: [i32; 6], drainage: [u32; 6]) -> Vec<u8> {
        let mut bytes: Vec<u8> = receivers
            .iter()
            .flat_map(|cell| cell.to_le_bytes())
            .collect();
        bytes.extend([0; 24]);
        bytes.extend(levels.iter().flat_map(|level| level.to_le_bytes()));
        bytes.extend(drainage.iter().flat_map(|sum| sum.to_le_bytes()));
        bytes.extend(WET);
        bytes
    }

    const RECEIVERS: [u16; 6] = [0, 2, 3, 4, 5, 5];
    const LEVELS: [i32; 6] = [7, 5, 5, 5, 5, 0];
    const DRAINAGE: [u32; 6] = [1, 1, 2, 3, 4, 5];
    const WET: [u8; 6] = [0, 1, 1, 1, 0, 0];

    #[test]
    fn sample_g_is_accepted() {
        assert_eq!(
            judge(
                Neighbours::Four,
                &ground(),
                &network(RECEIVERS, LEVELS, DRAINAGE)
            ),
            Ok(())
        );
    }

    #[test]
    fn a_ring_is_refused() {
        let ring = network([0, 2, 1, 4, 5, 5], LEVELS, DRAINAGE);
        assert!(judge(Neighbours::Four, &ground(), &ring)
            .unwrap_err()
            .contains("twice"));
    }

    #[test]
    fn a_leap_is_refused() {
        let leap = network([0, 5, 3, 4, 5, 5], LEVELS, DRAINAGE);
        assert!(judge(Neighbours::Four, &ground(), &leap)
            .unwrap_err()
            .contains("receive to"));
    }

    #[test]
    fn a_way_over_higher_ground_is_refused() {
        let over_the_top = network([0, 0, 1, 2, 5, 5], LEVELS, DRAINAGE);
        let wrong = judge(Neighbours::Four, &ground(), &over_the_top).unwrap_err();
        assert!(wrong.contains("climbs to 7, and 5 is enough"));
    }

    #[test]
    fn a_level_too_high_is_refused() {
        let too_high = network(RECEIVERS, [7, 7, 5, 5, 5, 0], DRAINAGE);
        assert!(judge(Neighbours::Four, &ground(), &too_high)
            .unwrap_err()
            .contains("level"));
    }

    #[test]
    fn a_wrong_wet_entry_is_refused() {
        let right = network(RECEIVERS, LEVELS, DRAINAGE);
        for cell in 0..6 {
            let mut wrong = right.clone();
            wrong[14 * 6 + cell] ^= 1;
            assert!(judge(Neighbours::Four, &ground(), &wrong)
                .unwrap_err()
                .contains("wet"));
        }
    }

    /// Where document 01's rule 10 and W-201's differ.
    #[test]
    fn a_wet_meadow_is_refused() {
        let level = Ground {
            heights: vec![0; 6],
            marks: vec![1, 0, 0, 0, 0, 0],
            ..ground()
        };
        let mut bytes = network([0, 0, 1, 2, 3, 4], [0; 6], [6, 5, 4, 3, 2, 1]);
        bytes[14 * 6..].fill(0);
        assert_eq!(judge(Neighbours::Four, &level, &bytes), Ok(()));
        bytes[14 * 6 + 1..].fill(1);
        assert!(judge(Neighbours::Four, &level, &bytes)
            .unwrap_err()
            .contains("wet"));
    }

    /// Sample G has one row, and no corners to go over.
    #[test]
    fn sample_g_is_accepted_with_8_neighbours() {
        let network = network(RECEIVERS, LEVELS, DRAINAGE);
        assert_eq!(judge(Neighbours::Eight, &ground(), &network), Ok(()));
    }

    /// Two rows: the outlet, and across the corner from it cell 4, between higher ones.
    fn two_rows() -> Ground {
        Ground {
            size: Size {
                width: 3,
                height: 2,
            },
            heights: vec![0, 5, 5, 5, 1, 5],
            marks: vec![1, 0, 0, 0, 0, 0],
            water: vec![1; 6],
        }
    }

    /// What is judged of the two rows: cell 4 receives to cell 0 or to cell 1, and has this level.
    fn judged(neighbours: Neighbours, receiver: u16, level: i32) -> Result<(), String> {
        let drainage = match receiver {
            0 => [6, 1, 1, 1, 3, 1],
            _ => [6, 4, 1, 1, 3, 1],
        };
        let levels = [0, 5, 5, 5, level, 5];
        let mut bytes = network([0, 0, 4, 0, receiver, 4], levels, drainage);
        bytes[14 * 6..].copy_from_slice(&[0, 0, 0, 0, u8::from(level > 1), 0]);
        judge(neighbours, &two_rows(), &bytes)
    }

    #[test]
    fn ways_run_over_the_neighbours_asked_for() {
        let (four, eight) = (Neighbours::Four, Neighbours::Eight);
        assert_eq!(judged(eight, 0, 1), Ok(()));
        assert!(judged(four, 0, 1).unwrap_err().contains("2 can't receive"));
        assert!(judged(eight, 1, 5).unwrap_err().contains("1 is enough"));
        assert!(judged(eight, 0, 5).unwrap_err().contains("level"));
    }

    #[test]
    fn no_level_may_be_above_that_with_4() {
        let across = |level| judge_across_counts(&two_rows(), &[0, 5, 5, 5, level, 5]);
        assert_eq!(across(1), Ok(()));
        assert_eq!(across(5), Ok(()));
        assert!(across(6).unwrap_err().contains("6 with 8"));
    }

    #[test]
    fn lost_water_is_refused() {
        let lost = network(RECEIVERS, LEVELS, [1, 1, 2, 3, 4, 4]);
        assert!(judge(Neighbours::Four, &ground(), &lost)
            .unwrap_err()
            .contains("drainage"));
    }
}
