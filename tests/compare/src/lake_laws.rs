//! What holds of every list of lakes, by brute force, on nothing but the ground and the bytes that came
//! back: the outermost lakes hold all the water that stands on the tile, and no more.

use second::ground::Ground;
use second::lake_list::LAKE;
use second::neighbours::Neighbours;

use crate::demand3::least_highest_points;

/// One lake as it was returned.
struct Returned {
    level: i32,
    cells: usize,
    least: usize,
    volume: u64,
}

/// Judges a list that was returned for a ground. An error says what is wrong.
pub fn judge(ground: &Ground, list: &[u8]) -> Result<(), String> {
    let points = least_highest_points(Neighbours::Four, ground);
    let lakes: Vec<Returned> = list.chunks_exact(LAKE).map(read).collect();
    lakes
        .iter()
        .enumerate()
        .try_for_each(|(number, lake)| judge_lake(ground, number, lake))?;
    // A lake inside another one stands lower than the water of its cells.
    let outermost: Vec<&Returned> = lakes
        .iter()
        .filter(|lake| lake.level == points[lake.least])
        .collect();
    if !outermost.windows(2).all(|two| two[0].least < two[1].least) {
        return Err("the outermost lakes are not in order".to_string());
    }
    judge_sums(ground, &points, &outermost)
}

fn read(lake: &[u8]) -> Returned {
    let number = |from: usize, to: usize| {
        let step = |above: u64, &byte: &u8| 256 * above + u64::from(byte);
        lake[from..to].iter().rev().fold(0, step)
    };
    Returned {
        level: number(0, 4) as u32 as i32,
        cells: number(4, 6) as usize,
        least: number(6, 8) as usize,
        volume: number(8, 16),
    }
}

/// A lake has a cell, which lies below its level, and so do all others.
fn judge_lake(ground: &Ground, number: usize, lake: &Returned) -> Result<(), String> {
    let is_cell = lake.least + lake.cells <= ground.size.cells() && lake.cells > 0;
    if !is_cell || ground.heights[lake.least] >= lake.level || lake.volume < lake.cells as u64 {
        return Err(format!("lake {number} is none"));
    }
    Ok(())
}

/// The sums over the outermost lakes are those over all cells whose water stands above their ground.
fn judge_sums(ground: &Ground, points: &[i32], outermost: &[&Returned]) -> Result<(), String> {
    let above = points.iter().zip(&ground.heights);
    let above = above.map(|(point, height)| u64::from(point.abs_diff(*height)));
    let (wet, water) = above.fold((0, 0), |(wet, water), more| {
        (wet + usize::from(more > 0), water + more)
    });
    let cells: usize = outermost.iter().map(|lake| lake.cells).sum();
    let volume: u64 = outermost.iter().map(|lake| lake.volume).sum();
    match (cells, volume) == (wet, water) {
        true => Ok(()),
        false => Err(format!(
            "the outermost lakes hold {volume} over {cells} cells, not {water} over {wet}"
        )),
    }
}

#[cfg(test)]
mod tests {
    use super::*;
    // Its lake splits into two.
    use crate::families::testing::sample_g as ground;

    fn list() -> Vec<u8> {
        let mut list = vec![0; 48];
        let answer = second::lakes_call(&second::record::bytes(&ground()), &mut list);
        assert_eq!(answer, 3);
        list
    }

    #[test]
    fn sample_g_is_accepted() {
        assert_eq!(judge(&ground(), &list()), Ok(()));
    }

    #[test]
    fn a_wrong_lake_is_refused() {
        // The last lake is the outermost one: its level, its cells, its least cell, its volume.
        for byte in [32, 36, 38, 40, 44] {
            let mut wrong = list();
            wrong[byte] ^= 1;
            assert!(judge(&ground(), &wrong).is_err(), "byte {byte}");
        }
    }

    #[test]
    fn a_missing_lake_is_refused() {
        assert!(judge(&ground(), &list()[..32]).is_err());
        assert!(judge(&ground(), &[]).is_err());
    }
}
