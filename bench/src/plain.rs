//! The plain Rust version: the C calls for a network as a Rust engineer would write them in an afternoon.
//! All checks, record in, record out; crossings sorted by the standard library, union-find,
//! carving by reversal. Its lists are kept between tiles, so that no time goes to allocation.
//! What differs with 8 neighbours is rule 1, by steepness, and that crossings include diagonals.
//! Sheet flow takes the levels of carving, and then other receivers (`sheet.rs`).

mod sheet;

use std::collections::VecDeque;

/// Width and height are at most this.
const MOST: usize = 64;

/// No cell, no pass.
const NONE: u32 = u32::MAX;

/// The neighbours that can be asked for.
#[derive(Clone, Copy, PartialEq, Eq)]
pub(crate) enum Neighbours {
    Four,
    Eight,
}

/// The manners that can be asked for.
#[derive(Clone, Copy, PartialEq, Eq)]
enum Manner {
    Carve,
    Sheet,
}

/// The lists that are kept between tiles.
#[derive(Default)]
pub struct Plain {
    pub(crate) width: usize,
    pub(crate) height: usize,
    pub(crate) heights: Vec<i32>,
    /// First receivers, later receivers. A singular cell has its own number.
    receivers: Vec<u16>,
    basins: Vec<u16>,
    singular_cells: Vec<u16>,
    crossings: Vec<(i32, u16, u16)>,
    groups: Groups,
    /// For each basin the first of its half passes, and for each half pass the next one.
    first_half: Vec<u32>,
    halves: Vec<HalfPass>,
    waiting: Vec<u16>,
    /// Of sheet flow: how many steps it is to where each cell's level ends, and the cells still to be looked at.
    steps: Vec<u16>,
    queue: VecDeque<u16>,
    /// Where each cell's givers begin in the list of givers.
    giver_starts: Vec<u16>,
    givers: Vec<u16>,
    order: Vec<u16>,
    pub(crate) levels: Vec<i32>,
    drainage: Vec<u32>,
}

/// A chosen pass, seen from the basin of its far cell.
#[derive(Clone, Copy)]
struct HalfPass {
    near: u16,
    far: u16,
    next: u32,
}

fn u16_at(bytes: &[u8], at: usize) -> u16 {
    u16::from_le_bytes([bytes[at], bytes[at + 1]])
}

fn u32_at(bytes: &[u8], at: usize) -> u32 {
    u32::from_le_bytes([bytes[at], bytes[at + 1], bytes[at + 2], bytes[at + 3]])
}

pub(crate) fn refused(number: u32, place: usize) -> u32 {
    number * 65_536 + place as u32
}

impl Plain {
    /// The console's call: refusal number times 65,536 plus place, or the length written.
    pub fn call(&mut self, ground: &[u8], network: &mut [u8]) -> u32 {
        self.network(Neighbours::Four, Manner::Carve, ground, network)
    }

    /// The service's call, which is told the neighbours and the manner.
    pub fn call_by(
        &mut self,
        neighbours: u32,
        manner: u32,
        ground: &[u8],
        network: &mut [u8],
    ) -> u32 {
        let neighbours = match neighbours {
            4 => Neighbours::Four,
            8 => Neighbours::Eight,
            _ => return refused(11, 0),
        };
        let manner = match manner {
            1 => Manner::Carve,
            2 => Manner::Sheet,
            _ => return refused(12, 0),
        };
        self.network(neighbours, manner, ground, network)
    }

    fn network(
        &mut self,
        neighbours: Neighbours,
        manner: Manner,
        ground: &[u8],
        network: &mut [u8],
    ) -> u32 {
        match self.work_out(neighbours, ground, network.len()) {
            Ok(()) => {}
            Err(refusal) => return refusal,
        }
        let cells = self.width * self.height;
        if manner == Manner::Sheet {
            self.spread(neighbours, &ground[4 * cells..5 * cells]);
            self.find_order();
        }
        self.find_drainage(&ground[5 * cells..7 * cells]);
        self.write(&mut network[..15 * cells + 28]);
        (15 * cells + 28) as u32
    }

    /// All of the carved network but the drainage, or why the ground or the room is refused.
    pub(crate) fn work_out(
        &mut self,
        neighbours: Neighbours,
        ground: &[u8],
        room: usize,
    ) -> Result<(), u32> {
        self.read(ground, room)?;
        let cells = self.width * self.height;
        let marks = &ground[4 * cells..5 * cells];
        match neighbours {
            Neighbours::Four => self.find_first_receivers(marks, Plain::lowest_around),
            Neighbours::Eight => self.find_first_receivers(marks, Plain::steepest_around),
        }
        self.label_basins();
        self.find_crossings(neighbours);
        self.choose_passes(marks);
        self.carve(marks);
        self.find_order();
        self.find_levels();
        Ok(())
    }

    /// Judges the record and the room, and keeps size and heights.
    fn read(&mut self, ground: &[u8], room: usize) -> Result<(), u32> {
        let trailer = ground.len().checked_sub(16).ok_or(refused(2, 0))?;
        self.width = usize::from(u16_at(ground, trailer));
        self.height = usize::from(u16_at(ground, trailer + 2));
        if !(1..=MOST).contains(&self.width) || !(1..=MOST).contains(&self.height) {
            return Err(refused(1, 0));
        }
        let cells = self.width * self.height;
        if trailer != 7 * cells {
            return Err(refused(2, 0));
        }
        for (at, times) in [(4, 7), (8, 3), (12, 2)] {
            if u32_at(ground, trailer + at) as usize != times * cells {
                return Err(refused(7, 0));
            }
        }
        if room < 15 * cells + 28 {
            return Err(refused(3, 0));
        }
        self.heights.clear();
        self.heights.extend(
            ground[..4 * cells]
                .chunks_exact(4)
                .map(|bytes| i32::from_le_bytes(bytes.try_into().unwrap())),
        );
        let out_of_range = |height: &i32| !(-8_000_000..=8_000_000).contains(height);
        if let Some(cell) = self.heights.iter().position(out_of_range) {
            return Err(refused(4, cell));
        }
        let marks = &ground[4 * cells..5 * cells];
        if let Some(cell) = marks.iter().position(|&mark| mark > 1) {
            return Err(refused(5, cell));
        }
        match marks.contains(&1) {
            true => Ok(()),
            false => Err(refused(6, 0)),
        }
    }

    fn find_first_receivers(
        &mut self,
        marks: &[u8],
        lower_around: impl Fn(&Plain, usize, usize) -> usize,
    ) {
        self.receivers.clear();
        for row in 0..self.height {
            for column in 0..self.width {
                let cell = row * self.width + column;
                let receiver = match marks[cell] {
                    1 => cell,
                    _ => lower_around(self, row, column),
                };
                self.receivers.push(receiver as u16);
            }
        }
    }

    /// The lowest neighbour if it is strictly lower, the cell itself otherwise.
    fn lowest_around(&self, row: usize, column: usize) -> usize {
        let cell = row * self.width + column;
        let (mut lowest, mut height) = (cell, self.heights[cell]);
        let mut look = |there: bool, neighbour: usize| {
            if there && self.heights[neighbour] < height {
                (lowest, height) = (neighbour, self.heights[neighbour]);
            }
        };
        look(row > 0, cell.wrapping_sub(self.width));
        look(column > 0, cell.wrapping_sub(1));
        look(column + 1 < self.width, cell + 1);
        look(row + 1 < self.height, cell + self.width);
        lowest
    }

    /// The same of the four neighbours at the corners.
    fn lowest_at_corners(&self, row: usize, column: usize) -> usize {
        let cell = row * self.width + column;
        let (mut lowest, mut height) = (cell, self.heights[cell]);
        let mut look = |there: bool, neighbour: usize| {
            if there && self.heights[neighbour] < height {
                (lowest, height) = (neighbour, self.heights[neighbour]);
            }
        };
        let (up, down) = (row > 0, row + 1 < self.height);
        let (left, right) = (column > 0, column + 1 < self.width);
        look(up && left, cell.wrapping_sub(self.width + 1));
        look(up && right, cell.wrapping_sub(self.width - 1));
        look(down && left, cell + self.width - 1);
        look(down && right, cell + self.width + 1);
        lowest
    }

    /// The steepest of eight neighbours if it is strictly lower, the cell itself otherwise. Of the straight
    /// ones only the lowest can be it, with a drop a, and so it is with the diagonal ones, with a drop b.
    fn steepest_around(&self, row: usize, column: usize) -> usize {
        let height = self.heights[row * self.width + column];
        let straight = self.lowest_around(row, column);
        let diagonal = self.lowest_at_corners(row, column);
        let a = i64::from(height - self.heights[straight]);
        let b = i64::from(height - self.heights[diagonal]);
        match b * b > 2 * a * a {
            true => diagonal,
            false => straight,
        }
    }

    /// Numbers the singular cells, then labels each way down to the first cell with a label.
    fn label_basins(&mut self) {
        const UNKNOWN: u16 = u16::MAX;
        self.basins.clear();
        self.basins.resize(self.receivers.len(), UNKNOWN);
        self.singular_cells.clear();
        for (cell, &receiver) in self.receivers.iter().enumerate() {
            if usize::from(receiver) == cell {
                self.basins[cell] = self.singular_cells.len() as u16;
                self.singular_cells.push(receiver);
            }
        }
        for start in 0..self.receivers.len() {
            let mut end = start;
            while self.basins[end] == UNKNOWN {
                end = usize::from(self.receivers[end]);
            }
            let basin = self.basins[end];
            let mut cell = start;
            while self.basins[cell] == UNKNOWN {
                self.basins[cell] = basin;
                cell = usize::from(self.receivers[cell]);
            }
        }
    }

    /// All crossings in ascending order. The least one of two basins is their pass.
    fn find_crossings(&mut self, neighbours: Neighbours) {
        self.crossings.clear();
        for row in 0..self.height {
            for column in 0..self.width {
                let cell = row * self.width + column;
                if column + 1 < self.width {
                    self.add_crossing(cell, cell + 1);
                }
                if row + 1 < self.height {
                    self.add_crossing(cell, cell + self.width);
                }
                if neighbours == Neighbours::Eight && row + 1 < self.height {
                    if column > 0 {
                        self.add_crossing(cell, cell + self.width - 1);
                    }
                    if column + 1 < self.width {
                        self.add_crossing(cell, cell + self.width + 1);
                    }
                }
            }
        }
        self.crossings.sort_unstable();
    }

    fn add_crossing(&mut self, lesser: usize, greater: usize) {
        if self.basins[lesser] != self.basins[greater] {
            let height = self.heights[lesser].max(self.heights[greater]);
            self.crossings.push((height, lesser as u16, greater as u16));
        }
    }

    /// Kruskal's algorithm. All outlet basins are one from the start.
    fn choose_passes(&mut self, marks: &[u8]) {
        let count = self.singular_cells.len();
        self.groups.start(count);
        let mut outlet_basins = (0..count as u16)
            .filter(|&basin| marks[usize::from(self.singular_cells[usize::from(basin)])] == 1);
        let first = outlet_basins.next().unwrap_or(0);
        for basin in outlet_basins {
            self.groups.join(first, basin);
        }
        self.first_half.clear();
        self.first_half.resize(count, NONE);
        self.halves.clear();
        for at in 0..self.crossings.len() {
            // As soon as all is one, no further crossing can be chosen.
            if self.groups.count == 1 {
                break;
            }
            let (_, lesser, greater) = self.crossings[at];
            let one = self.basins[usize::from(lesser)];
            let other = self.basins[usize::from(greater)];
            if self.groups.join(one, other) {
                self.add_half(lesser, greater);
                self.add_half(greater, lesser);
            }
        }
    }

    fn add_half(&mut self, near: u16, far: u16) {
        let basin = usize::from(self.basins[usize::from(far)]);
        let next = self.first_half[basin];
        self.first_half[basin] = self.halves.len() as u32;
        self.halves.push(HalfPass { near, far, next });
    }

    /// Walks from the outlet basins inwards and carves each basin where it is reached.
    fn carve(&mut self, marks: &[u8]) {
        self.waiting.clear();
        let outlets = (0..self.singular_cells.len())
            .filter(|&basin| marks[usize::from(self.singular_cells[basin])] == 1);
        self.waiting.extend(outlets.map(|basin| basin as u16));
        while let Some(basin) = self.waiting.pop() {
            let mut half = std::mem::replace(&mut self.first_half[usize::from(basin)], NONE);
            while half != NONE {
                let HalfPass { near, far, next } = self.halves[half as usize];
                let upper = self.basins[usize::from(near)];
                // Only the way back leads to a basin whose passes have been taken already:
                // chosen passes close no ring, and none of their chains joins two outlet basins.
                if self.first_half[usize::from(upper)] != NONE {
                    self.reverse(near, far);
                    self.waiting.push(upper);
                }
                half = next;
            }
        }
    }

    /// Reverses the first way from the near cell to the pit.
    fn reverse(&mut self, near: u16, far: u16) {
        let (mut cell, mut receiver) = (near, far);
        loop {
            let next = std::mem::replace(&mut self.receivers[usize::from(cell)], receiver);
            if next == cell {
                return;
            }
            (cell, receiver) = (next, cell);
        }
    }

    /// Lists each cell's givers by ascending number, then goes depth first from each outlet.
    fn find_order(&mut self) {
        let cells = self.receivers.len();
        self.giver_starts.clear();
        self.giver_starts.resize(cells + 2, 0);
        for &receiver in &self.receivers {
            self.giver_starts[usize::from(receiver) + 2] += 1;
        }
        for cell in 2..cells + 2 {
            self.giver_starts[cell] += self.giver_starts[cell - 1];
        }
        self.givers.clear();
        self.givers.resize(cells, 0);
        for (cell, &receiver) in self.receivers.iter().enumerate() {
            let start = &mut self.giver_starts[usize::from(receiver) + 1];
            self.givers[usize::from(*start)] = cell as u16;
            *start += 1;
        }
        self.order.clear();
        for outlet in 0..cells as u16 {
            if self.receivers[usize::from(outlet)] == outlet {
                self.waiting.clear();
                self.waiting.push(outlet);
                self.go_up();
            }
        }
    }

    /// Takes the waiting cell and all that lies above it into the order.
    fn go_up(&mut self) {
        while let Some(cell) = self.waiting.pop() {
            self.order.push(cell);
            let start = usize::from(self.giver_starts[usize::from(cell)]);
            let end = usize::from(self.giver_starts[usize::from(cell) + 1]);
            let givers = self.givers[start..end].iter().rev();
            self.waiting.extend(givers.filter(|&&giver| giver != cell));
        }
    }

    /// Receivers come first in the order, so their levels are known.
    fn find_levels(&mut self) {
        self.levels.clear();
        self.levels.extend(&self.heights);
        for &cell in &self.order {
            let cell = usize::from(cell);
            let receiver = usize::from(self.receivers[cell]);
            self.levels[cell] = self.levels[cell].max(self.levels[receiver]);
        }
    }

    /// Against the order each cell has all its water before it hands it on.
    fn find_drainage(&mut self, water: &[u8]) {
        self.drainage.clear();
        self.drainage.extend(
            water
                .chunks_exact(2)
                .map(|bytes| u32::from(u16::from_le_bytes([bytes[0], bytes[1]]))),
        );
        for &cell in self.order.iter().rev() {
            let receiver = self.receivers[usize::from(cell)];
            if receiver != cell {
                self.drainage[usize::from(receiver)] += self.drainage[usize::from(cell)];
            }
        }
    }

    fn write(&self, network: &mut [u8]) {
        let cells = self.receivers.len();
        let (receivers, rest) = network.split_at_mut(2 * cells);
        let (basins, rest) = rest.split_at_mut(2 * cells);
        let (order, rest) = rest.split_at_mut(2 * cells);
        let (levels, rest) = rest.split_at_mut(4 * cells);
        let (drainage, rest) = rest.split_at_mut(4 * cells);
        let (wet, trailer) = rest.split_at_mut(cells);
        write_u16(receivers, &self.receivers);
        write_u16(basins, &self.basins);
        write_u16(order, &self.order);
        for (bytes, level) in levels.chunks_exact_mut(4).zip(&self.levels) {
            bytes.copy_from_slice(&level.to_le_bytes());
        }
        for (bytes, sum) in drainage.chunks_exact_mut(4).zip(&self.drainage) {
            bytes.copy_from_slice(&sum.to_le_bytes());
        }
        for ((wet, level), height) in wet.iter_mut().zip(&self.levels).zip(&self.heights) {
            *wet = u8::from(level > height);
        }
        trailer[..2].copy_from_slice(&(self.width as u16).to_le_bytes());
        trailer[2..4].copy_from_slice(&(self.height as u16).to_le_bytes());
        let distances = [15, 13, 11, 9, 5, 1].map(|times| times * cells as u32);
        for (bytes, distance) in trailer[4..].chunks_exact_mut(4).zip(distances) {
            bytes.copy_from_slice(&distance.to_le_bytes());
        }
    }
}

fn write_u16(section: &mut [u8], entries: &[u16]) {
    for (bytes, entry) in section.chunks_exact_mut(2).zip(entries) {
        bytes.copy_from_slice(&entry.to_le_bytes());
    }
}

/// Union-find over basins or cells, by size and with halved ways.
#[derive(Default)]
pub(crate) struct Groups {
    parents: Vec<u16>,
    sizes: Vec<u16>,
    count: usize,
}

impl Groups {
    /// So many numbers, each a group of its own.
    pub(crate) fn start(&mut self, count: usize) {
        self.parents.clear();
        self.parents.extend(0..count as u16);
        self.sizes.clear();
        self.sizes.resize(count, 1);
        self.count = count;
    }

    pub(crate) fn root(&mut self, mut number: u16) -> u16 {
        while self.parents[usize::from(number)] != number {
            let parent = self.parents[usize::from(number)];
            self.parents[usize::from(number)] = self.parents[usize::from(parent)];
            number = parent;
        }
        number
    }

    /// Makes one group of two. False if they were one already.
    pub(crate) fn join(&mut self, one: u16, other: u16) -> bool {
        let (mut large, mut small) = (self.root(one), self.root(other));
        if large == small {
            return false;
        }
        if self.sizes[usize::from(large)] < self.sizes[usize::from(small)] {
            (large, small) = (small, large);
        }
        self.parents[usize::from(small)] = large;
        self.sizes[usize::from(large)] += self.sizes[usize::from(small)];
        self.count -= 1;
        true
    }
}

#[cfg(test)]
mod tests {
    use super::*;
    use compare::asked::{self, Asked};
    use compare::cases;
    use compare::exhaustive;
    use second::{network_record, record};

    /// The plain version and the second program, on every family, sound and damaged.
    #[test]
    fn the_plain_version_agrees_with_the_second_program() {
        let mut plain = Plain::default();
        for index in 0..10_000 {
            let specimen = cases::NETWORK.specimen(11, index);
            for &room in &specimen.rooms {
                let (mut found, mut wanted) = (vec![0xA5; room], vec![0xA5; room]);
                let answer = plain.call(&specimen.record, &mut found);
                assert_eq!(answer, second::call(&specimen.record, &mut wanted));
                assert_eq!(found, wanted, "{}, index {index}", specimen.family);
            }
        }
    }

    /// The same over the neighbours and in the manner asked for, and with counts and manners that can't be asked for.
    #[test]
    fn the_plain_version_agrees_on_what_is_asked_for() {
        let mut plain = Plain::default();
        for index in 0..20_000 {
            let specimen = cases::NETWORK_BY.specimen(11, index);
            let Asked { neighbours, manner } = specimen.asked;
            for &room in &specimen.rooms {
                let (mut found, mut wanted) = (vec![0xA5; room], vec![0xA5; room]);
                let record = &specimen.record;
                let answer = plain.call_by(neighbours, manner, record, &mut found);
                let right = second::network_by_call(neighbours, manner, record, &mut wanted);
                assert_eq!(answer, right);
                assert_eq!(found, wanted, "{}, index {index}", specimen.family);
            }
        }
    }

    #[test]
    fn the_plain_version_agrees_on_3_by_3_tiles() {
        let mut plain = Plain::default();
        for number in 0..exhaustive::TILES {
            let ground = exhaustive::tile(number);
            let bytes = record::bytes(&ground);
            let length = network_record::length(ground.size);
            for asked in asked::RIGHT {
                let Asked { neighbours, manner } = asked;
                let (mut found, mut wanted) = (vec![0; length], vec![0; length]);
                plain.call_by(neighbours, manner, &bytes, &mut found);
                second::network_by_call(neighbours, manner, &bytes, &mut wanted);
                assert_eq!(found, wanted, "tile {number}, {asked}");
            }
        }
    }
}
