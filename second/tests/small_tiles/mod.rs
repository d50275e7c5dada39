//! Small tiles full of ties, for the tests that read the rules slowly.

use second::ground::{Ground, Size};

/// Small tiles with few heights and a few outlets, always the same ones.
pub fn small_tiles() -> Vec<Ground> {
    let mut state = 1_u64;
    let mut below = move |limit: u64| {
        state = state
            .wrapping_mul(6_364_136_223_846_793_005)
            .wrapping_add(1_442_695_040_888_963_407);
        (state >> 33) % limit
    };
    let mut tiles = Vec::new();
    for _ in 0..2_000 {
        let (width, height) = (1 + below(5) as usize, 1 + below(5) as usize);
        let cells = width * height;
        let heights = 1 + below(5);
        let mut marks = vec![0; cells];
        for _ in 0..1 + below(3) {
            marks[below(cells as u64) as usize] = 1;
        }
        tiles.push(Ground {
            size: Size { width, height },
            heights: (0..cells).map(|_| below(heights) as i32).collect(),
            marks,
            water: (0..cells).map(|_| below(100) as u16).collect(),
        });
    }
    tiles
}
