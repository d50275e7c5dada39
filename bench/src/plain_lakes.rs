//! The plain Rust version of the call for lakes, as a Rust engineer would write it in an afternoon: wet cells sorted by height, and
//! union-find while the water rises over them. Ponds that meet at a height have been lakes of their own up to there.

use crate::plain::{refused, Groups, Neighbours, Plain};

/// No lake.
const NONE: u32 = u32::MAX;

/// The bytes of one lake in the list.
const LAKE: usize = 16;

/// What the water has joined so far.
#[derive(Clone, Copy)]
struct Pond {
    cells: u16,
    least: u16,
    /// The sum of its heights.
    heights: i64,
    /// The last one found of the lakes inside it.
    inside: u32,
    /// The depth of the deepest of these.
    depth: u16,
}

/// A pond up to the level at which it met others.
struct Lake {
    level: i32,
    pond: Pond,
    /// The next one inside the same lake.
    next: u32,
}

/// The lists that are kept between tiles.
#[derive(Default)]
pub struct PlainLakes {
    network: Plain,
    /// The wet cells by ascending height.
    rising: Vec<u16>,
    groups: Groups,
    /// For each cell that stands for its group: the pond, and the round in which it last grew. Round 0 is before a cell has come.
    ponds: Vec<Pond>,
    rounds: Vec<u32>,
    /// Ponds of earlier rounds that met something in this one, by the cell that stood for them.
    met: Vec<(u16, Pond)>,
    /// How many of these are now in the group that each cell stands for.
    counts: Vec<u16>,
    lakes: Vec<Lake>,
    /// The outermost lakes by ascending least cell.
    outermost: Vec<(u16, u16)>,
}

impl PlainLakes {
    /// The C call: refusal number times 65,536 plus place, or the number of lakes.
    pub fn call(&mut self, ground: &[u8], room: &mut [u8]) -> u32 {
        let worked_out = self.network.work_out(Neighbours::Four, ground, usize::MAX);
        if let Err(refusal) = worked_out {
            return refusal;
        }
        self.find_lakes();
        let deep = |&&(_, cell): &&(u16, u16)| self.ponds[usize::from(cell)].depth >= 64;
        if let Some(&(least, _)) = self.outermost.iter().find(deep) {
            return refused(10, usize::from(least));
        }
        let count = self.lakes.len() + self.outermost.len();
        if room.len() / LAKE < count {
            return refused(3, 0);
        }
        let mut entries = room.chunks_exact_mut(LAKE);
        for &(_, cell) in &self.outermost {
            let level = self.network.levels[usize::from(cell)];
            self.write(level, &self.ponds[usize::from(cell)], &mut entries);
        }
        count as u32
    }

    /// Lets the water rise over all wet cells, one height after the other.
    fn find_lakes(&mut self) {
        let (heights, levels) = (&self.network.heights, &self.network.levels);
        let cells = heights.len();
        self.rising.clear();
        self.rising.extend(
            (0..cells as u16)
                .filter(|&cell| levels[usize::from(cell)] > heights[usize::from(cell)]),
        );
        self.rising
            .sort_unstable_by_key(|&cell| heights[usize::from(cell)]);
        self.groups.start(cells);
        self.ponds.clear();
        self.ponds.extend((0..cells).map(|cell| Pond {
            cells: 1,
            least: cell as u16,
            heights: i64::from(heights[cell]),
            inside: NONE,
            depth: 0,
        }));
        self.rounds.clear();
        self.rounds.resize(cells, 0);
        self.counts.clear();
        self.counts.resize(cells, 0);
        self.lakes.clear();
        let mut start = 0;
        while start < self.rising.len() {
            start = self.rise(start);
        }
        self.find_outermost();
    }

    /// One round: all cells of the height that comes at this place. The answer is the place after them.
    fn rise(&mut self, start: usize) -> usize {
        let height = self.network.heights[usize::from(self.rising[start])];
        let round = start as u32 + 1;
        self.met.clear();
        let mut at = start;
        while at < self.rising.len() && self.network.heights[usize::from(self.rising[at])] == height
        {
            self.come(self.rising[at], round);
            at += 1;
        }
        self.settle(height);
        at
    }

    /// A cell comes, and joins those of its neighbours that have come.
    fn come(&mut self, cell: u16, round: u32) {
        let (width, height) = (self.network.width, self.network.height);
        let place = usize::from(cell);
        let (row, column) = (place / width, place % width);
        self.rounds[place] = round;
        let mut meet = |there: bool, neighbour: usize| {
            if there && self.rounds[neighbour] != 0 {
                self.join(cell, neighbour as u16, round);
            }
        };
        meet(row > 0, place.wrapping_sub(width));
        meet(column > 0, place.wrapping_sub(1));
        meet(column + 1 < width, place + 1);
        meet(row + 1 < height, place + width);
    }

    /// Makes one pond of two. A pond of an earlier round is noted as it was.
    fn join(&mut self, one: u16, other: u16, round: u32) {
        let (one, other) = (self.groups.root(one), self.groups.root(other));
        if one == other {
            return;
        }
        let (here, there) = (self.ponds[usize::from(one)], self.ponds[usize::from(other)]);
        if self.rounds[usize::from(other)] != round {
            self.met.push((other, there));
        }
        self.groups.join(one, other);
        let root = usize::from(self.groups.root(one));
        self.rounds[root] = round;
        self.ponds[root] = Pond {
            cells: here.cells + there.cells,
            least: here.least.min(there.least),
            heights: here.heights + there.heights,
            inside: NONE,
            depth: 0,
        };
    }

    /// Where two ponds or more have met, each is a lake up to this height. Where one met nothing but new cells, it goes on.
    fn settle(&mut self, height: i32) {
        for &(cell, _) in &self.met {
            self.counts[usize::from(self.groups.root(cell))] += 1;
        }
        for &(cell, pond) in &self.met {
            let root = usize::from(self.groups.root(cell));
            let joined = &mut self.ponds[root];
            if self.counts[root] == 1 {
                (joined.inside, joined.depth) = (pond.inside, pond.depth);
            } else {
                let (level, next) = (height, joined.inside);
                joined.inside = self.lakes.len() as u32;
                joined.depth = joined.depth.max(pond.depth + 1);
                self.lakes.push(Lake { level, pond, next });
            }
        }
        for &(cell, _) in &self.met {
            self.counts[usize::from(self.groups.root(cell))] = 0;
        }
    }

    fn find_outermost(&mut self) {
        self.outermost.clear();
        for &cell in &self.rising {
            if self.groups.root(cell) == cell {
                let least = self.ponds[usize::from(cell)].least;
                self.outermost.push((least, cell));
            }
        }
        self.outermost.sort_unstable();
    }

    /// Writes a pond up to a level as a lake, after all the lakes inside it.
    fn write<'a>(&self, level: i32, pond: &Pond, entries: &mut impl Iterator<Item = &'a mut [u8]>) {
        let some = |at: u32| (at != NONE).then_some(at);
        let next = |&at: &u32| some(self.lakes[at as usize].next);
        let all = std::iter::successors(some(pond.inside), next);
        let mut inside: Vec<&Lake> = all.map(|at| &self.lakes[at as usize]).collect();
        inside.sort_unstable_by_key(|lake| lake.pond.least);
        for lake in inside {
            self.write(lake.level, &lake.pond, entries);
        }
        let volume = i64::from(level) * i64::from(pond.cells) - pond.heights;
        let entry = entries.next().expect("the room has been judged");
        entry[0..4].copy_from_slice(&level.to_le_bytes());
        entry[4..6].copy_from_slice(&pond.cells.to_le_bytes());
        entry[6..8].copy_from_slice(&pond.least.to_le_bytes());
        entry[8..16].copy_from_slice(&volume.to_le_bytes());
    }
}

#[cfg(test)]
mod tests {
    use super::*;
    use compare::cases;
    use compare::exhaustive;
    use second::record;

    /// The plain version and the second program, on every family, sound and damaged.
    #[test]
    fn the_plain_version_agrees_with_the_second_program() {
        let mut plain = PlainLakes::default();
        for index in 0..2_000 {
            let specimen = cases::LAKES.specimen(11, index);
            for &room in &specimen.rooms {
                let (mut found, mut wanted) = (vec![0xA5; room], vec![0xA5; room]);
                let answer = plain.call(&specimen.record, &mut found);
                assert_eq!(answer, second::lakes_call(&specimen.record, &mut wanted));
                assert_eq!(found, wanted, "{}, index {index}", specimen.family);
            }
        }
    }

    #[test]
    fn the_plain_version_agrees_on_3_by_3_tiles() {
        let mut plain = PlainLakes::default();
        for number in 0..exhaustive::TILES {
            let bytes = record::bytes(&exhaustive::tile(number));
            let (mut found, mut wanted) = ([0; 9 * LAKE], [0; 9 * LAKE]);
            plain.call(&bytes, &mut found);
            second::lakes_call(&bytes, &mut wanted);
            assert_eq!(found, wanted, "tile {number}");
        }
    }
}
