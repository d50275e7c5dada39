//! W-202: the lakes of a tile, and the lakes inside them.

use crate::ground::{Cell, Ground, Size};
use crate::groups::Groups;
use crate::network::{network, Network};
use crate::refusal::Refusal;

/// No outermost lake may be deeper than this.
pub const DEEPEST: usize = 64;

/// A lake. Its cells come by ascending number, the lakes inside it by ascending least cell.
#[derive(Clone, Debug, PartialEq, Eq)]
pub struct Lake {
    pub level: i32,
    pub cells: Vec<Cell>,
    pub inside: Vec<Lake>,
    /// The sum of level minus height.
    pub volume: u64,
}

impl Lake {
    /// The least cell number in it.
    pub fn least(&self) -> Cell {
        self.cells[0]
    }

    /// 1 for a lake that never splits, otherwise one more than the deepest of its groups.
    pub fn depth(&self) -> usize {
        1 + self.inside.iter().map(Lake::depth).max().unwrap_or(0)
    }
}

/// The outermost lakes of a ground that has been judged, unless one is too deep: refusal 10.
pub fn lakes(ground: &Ground) -> Result<Vec<Lake>, Refusal> {
    let outermost = outermost(ground, &network(ground));
    match outermost.iter().find(|lake| lake.depth() > DEEPEST) {
        Some(first) => Err(Refusal::Depth(first.least())),
        None => Ok(outermost),
    }
}

/// The largest groups of wet cells, each with the lakes inside it, by ascending least cell.
/// A lake that is too deep is only looked into as far as it takes to know that.
fn outermost(ground: &Ground, network: &Network) -> Vec<Lake> {
    let outermost = groups(&wet_cells(ground, network), ground.size).into_iter();
    outermost
        .map(|cells| {
            // Neighbouring wet cells have one level, so any cell of the group tells it.
            let level = network.levels[cells[0].index()];
            lake(ground, level, cells, DEEPEST + 1)
        })
        .collect()
}

/// All wet cells, by ascending number.
pub fn wet_cells(ground: &Ground, network: &Network) -> Vec<Cell> {
    let is_wet = |cell: &Cell| network.wet[cell.index()] == 1;
    ground.cells().filter(is_wet).collect()
}

/// The lake of these cells at this level, with the lakes inside it. At most so many lakes that lie
/// in each other are looked at, this one among them.
fn lake(ground: &Ground, level: i32, cells: Vec<Cell>, most: usize) -> Lake {
    let inside = match split(ground, &cells) {
        Some(height) if most > 1 => groups(&lower(ground, &cells, height), ground.size)
            .into_iter()
            .map(|group| lake(ground, height, group, most - 1))
            .collect(),
        _ => Vec::new(),
    };
    Lake {
        level,
        volume: volume(ground, level, &cells),
        cells,
        inside,
    }
}

/// The sum of level minus height, which can pass 32 bits.
pub fn volume(ground: &Ground, level: i32, cells: &[Cell]) -> u64 {
    let above = |&cell: &Cell| u64::from(level.abs_diff(ground.height(cell)));
    cells.iter().map(above).sum()
}

/// Those of the cells that are lower than this height.
pub fn lower(ground: &Ground, cells: &[Cell], height: i32) -> Vec<Cell> {
    let is_lower = |cell: &&Cell| ground.height(**cell) < height;
    cells.iter().filter(is_lower).copied().collect()
}

/// The groups of these cells, joined through neighbours, by ascending least cell.
pub fn groups(cells: &[Cell], size: Size) -> Vec<Vec<Cell>> {
    let mut left = vec![false; size.cells()];
    for cell in cells {
        left[cell.index()] = true;
    }
    let mut groups = Vec::new();
    for &least in cells {
        if std::mem::take(&mut left[least.index()]) {
            let mut group = vec![least];
            let mut seen = 0;
            while seen < group.len() {
                let near = size.neighbours(group[seen]);
                group.extend(near.filter(|cell| std::mem::take(&mut left[cell.index()])));
                seen += 1;
            }
            group.sort();
            groups.push(group);
        }
    }
    groups
}

/// The greatest height h below a lake's level at which its cells lower than h form two or more
/// groups, if there is one.
///
/// It is enough to try the heights of the lake's own cells. From one of these heights up to the next
/// one, the next one included, the same cells are lower than h, and the next one is the greatest such
/// h. Above the highest cell all are lower, and they are one group, or this would be no lake.
///
/// The heights are tried from below: cells come by ascending height, each joined to its neighbours
/// that have come before. When the first cell of a height is about to come, those that have come are
/// the cells lower than it.
pub fn split(ground: &Ground, cells: &[Cell]) -> Option<i32> {
    let mut rising = cells.to_vec();
    rising.sort_by_key(|&cell| ground.height(cell));
    let mut groups = Groups::apart(rising.len());
    let mut count = 0;
    let mut place_of = vec![None; ground.size.cells()];
    let mut greatest = None;
    for (place, &cell) in rising.iter().enumerate() {
        let height = ground.height(cell);
        let first_of_height = place == 0 || ground.height(rising[place - 1]) < height;
        if first_of_height && count >= 2 {
            greatest = Some(height);
        }
        place_of[cell.index()] = Some(place);
        count += 1;
        for neighbour in ground.size.neighbours(cell) {
            let come_before = place_of[neighbour.index()];
            if let Some(other) = come_before.filter(|&other| !groups.joined(place, other)) {
                groups.join(place, other);
                count -= 1;
            }
        }
    }
    greatest
}

/// All lakes in the order of the list: each after all the lakes inside it, smaller least cell first.
pub fn listed(lakes: &[Lake]) -> Vec<&Lake> {
    let mut list = Vec::new();
    for lake in lakes {
        list.extend(listed(&lake.inside));
        list.push(lake);
    }
    list
}
