//! Reliefs: the heights of a tile, one function for each kind of land.

use second::ground::{Size, HEIGHTS};

use crate::chance::Chance;

/// A kind of land.
pub type Relief = fn(&mut Chance, Size) -> Vec<i32>;

/// All kinds of land, for the families that take any of them.
pub const ALL: [Relief; 13] = [
    random,
    few_heights,
    level,
    largely_level,
    nested_bowls,
    equal_sills,
    ridges,
    slope,
    hills,
    extremes,
    checkerboard,
    spiral_stair,
    spiral_corridor,
];

/// A height for each cell, out of its row and column.
pub fn each_cell(size: Size, mut height: impl FnMut(i32, i32) -> i32) -> Vec<i32> {
    (0..size.cells())
        .map(|cell| height((cell / size.width) as i32, (cell % size.width) as i32))
        .collect()
}

/// A height to build upon, often zero, sometimes near an end of the range.
pub fn base(chance: &mut Chance) -> i32 {
    chance.pick(&[0, 0, 0, -1, 1000, -70_000, 7_990_000, -7_990_000])
}

/// Any heights, from a narrow span to all that is allowed.
pub fn random(chance: &mut Chance, size: Size) -> Vec<i32> {
    let span = chance.pick(&[1, 4, 30, 5000, 8_000_000]);
    each_cell(size, |_, _| chance.between(-span, span))
}

/// Two to four heights in all, so that nearly everything is a tie.
pub fn few_heights(chance: &mut Chance, size: Size) -> Vec<i32> {
    let base = base(chance);
    let step = chance.pick(&[1, 1, 256, 3_000]);
    let steps = chance.between(1, 3);
    each_cell(size, |_, _| base + step * chance.between(0, steps))
}

/// One height throughout.
pub fn level(chance: &mut Chance, size: Size) -> Vec<i32> {
    let height = chance.pick(&[0, 1, -1, 8_000_000, -8_000_000, 123_456]);
    vec![height; size.cells()]
}

/// One height, but for a dent or a bump here and there.
pub fn largely_level(chance: &mut Chance, size: Size) -> Vec<i32> {
    let base = base(chance);
    let rarity = 4 + chance.below(60);
    let span = chance.pick(&[1, 2, 500]);
    each_cell(size, |_, _| match chance.one_in(rarity) {
        true => base + chance.between(-span, span),
        false => base,
    })
}

/// Bowls within bowls: rings around a centre, every second one a rim.
pub fn nested_bowls(chance: &mut Chance, size: Size) -> Vec<i32> {
    let base = base(chance);
    let centre_row = chance.below(size.height) as i32;
    let centre_column = chance.below(size.width) as i32;
    let fall = chance.between(-3, 3);
    let rim = chance.between(1, 12);
    let gaps = 3 + chance.below(30);
    each_cell(size, |row, column| {
        let rings = (row - centre_row).abs().max((column - centre_column).abs());
        let on_rim = rings % 2 == 1 && !chance.one_in(gaps);
        base + fall * rings + i32::from(on_rim) * rim
    })
}

/// Chambers behind walls, with doors whose sills are all equally high.
pub fn equal_sills(chance: &mut Chance, size: Size) -> Vec<i32> {
    let base = base(chance);
    let apart = chance.between(2, 5);
    let (wall, sill) = (chance.between(20, 40), chance.between(8, 12));
    let doors = 1 + chance.below(5);
    let floors = chance.between(0, 8);
    each_cell(size, |row, column| {
        let in_wall = row % apart == apart - 1 || column % apart == apart - 1;
        base + match (in_wall, chance.one_in(doors)) {
            (true, true) => sill,
            (true, false) => wall,
            (false, _) => chance.between(0, floors),
        }
    })
}

/// Ridges along rows, columns or diagonals, broken here and there.
pub fn ridges(chance: &mut Chance, size: Size) -> Vec<i32> {
    let base = base(chance);
    let (down, across) = chance.pick(&[(1, 0), (0, 1), (1, 1), (2, 1)]);
    let apart = chance.between(2, 6);
    let crest = chance.between(1, 300);
    let roughness = chance.pick(&[0, 0, 1, 3]);
    let gaps = 2 + chance.below(20);
    each_cell(size, |row, column| {
        let on_ridge = (down * row + across * column) % apart == 0 && !chance.one_in(gaps);
        base + i32::from(on_ridge) * crest + chance.between(0, roughness)
    })
}

/// A slope one way, smooth or rough.
pub fn slope(chance: &mut Chance, size: Size) -> Vec<i32> {
    let base = base(chance);
    let (down, across) = (chance.between(-5, 5), chance.between(-5, 5));
    let roughness = chance.pick(&[0, 0, 1, 2, 8]);
    each_cell(size, |row, column| {
        base + down * row + across * column + chance.between(0, roughness)
    })
}

/// Hills and valleys, the land of the game: coarse heights with finer ones on top.
pub fn hills(chance: &mut Chance, size: Size) -> Vec<i32> {
    let mut heights = vec![0; size.cells()];
    for (apart, span) in [(16, 20_000), (8, 8_000), (4, 2_500), (2, 600)] {
        let layer = smooth_layer(chance, size, apart, span);
        for (height, more) in heights.iter_mut().zip(layer) {
            *height += more;
        }
    }
    heights
}

/// Heights at the corners of a coarse grid, and straight lines between them.
fn smooth_layer(chance: &mut Chance, size: Size, apart: i32, span: i32) -> Vec<i32> {
    let columns = size.width as i32 / apart + 2;
    let rows = size.height as i32 / apart + 2;
    let corners: Vec<i32> = (0..rows * columns)
        .map(|_| chance.between(-span, span))
        .collect();
    each_cell(size, |row, column| {
        let (down, across) = (row % apart, column % apart);
        let corner =
            |r: i32, c: i32| corners[((row / apart + r) * columns + column / apart + c) as usize];
        let upper = corner(0, 0) * (apart - across) + corner(0, 1) * across;
        let lower = corner(1, 0) * (apart - across) + corner(1, 1) * across;
        (upper * (apart - down) + lower * down) / (apart * apart)
    })
}

/// The ends of the range and what lies just within, and zero with its neighbours.
pub fn extremes(chance: &mut Chance, size: Size) -> Vec<i32> {
    let (least, greatest) = (*HEIGHTS.start(), *HEIGHTS.end());
    let all = [least, least + 1, -1, 0, 1, greatest - 1, greatest];
    let few = [least, greatest];
    let heights: &[i32] = if chance.one_in(2) { &all } else { &few };
    each_cell(size, |_, _| chance.pick(heights))
}

/// Two heights in turn, with an exception here and there.
pub fn checkerboard(chance: &mut Chance, size: Size) -> Vec<i32> {
    let base = base(chance);
    let step = chance.pick(&[1, 7, 9_000]);
    let rarity = 2 + chance.below(60);
    each_cell(size, |row, column| {
        let exception = chance.one_in(rarity);
        base + step * i32::from(((row + column) % 2 == 0) != exception)
    })
}

/// A stair that winds inwards and takes up all of the tile.
pub fn spiral_stair(chance: &mut Chance, size: Size) -> Vec<i32> {
    let step = chance.pick(&[1, -1, 3]);
    let landing = chance.pick(&[1, 1, 2, 5]);
    let mut heights = vec![0; size.cells()];
    for (place, cell) in spiral(size, 1).into_iter().enumerate() {
        heights[cell] = place as i32 / landing * step;
    }
    heights
}

/// A winding corridor between walls: the longest ways that a tile can have.
pub fn spiral_corridor(chance: &mut Chance, size: Size) -> Vec<i32> {
    let step = chance.pick(&[0, 1, -1]);
    let roughness = chance.pick(&[0, 0, 2]);
    let mut heights = each_cell(size, |_, _| 100_000 + chance.between(0, roughness));
    for (place, cell) in spiral(size, 2).into_iter().enumerate() {
        heights[cell] = place as i32 * step + chance.between(0, roughness);
    }
    heights
}

/// The cells of a path from the first cell inwards, its windings so many cells apart.
pub fn spiral(size: Size, apart: i32) -> Vec<usize> {
    let (width, height) = (size.width as i32, size.height as i32);
    let mut on_path = vec![false; size.cells()];
    let (mut row, mut column) = (0, 0);
    let (mut down, mut across) = (0, 1);
    let mut path = vec![0];
    on_path[0] = true;
    let mut turned = false;
    loop {
        let blocked = (1..=apart).any(|ahead| {
            let (r, c) = (row + ahead * down, column + ahead * across);
            let inside = (0..height).contains(&r) && (0..width).contains(&c);
            match inside {
                true => on_path[(r * width + c) as usize],
                false => ahead == 1,
            }
        });
        match (blocked, turned) {
            (true, true) => return path,
            (true, false) => ((down, across), turned) = ((across, -down), true),
            (false, _) => {
                (row, column, turned) = (row + down, column + across, false);
                let cell = (row * width + column) as usize;
                on_path[cell] = true;
                path.push(cell);
            }
        }
    }
}
