//! Sheet flow (W-205): receivers from the levels, by a breadth-first search over cells of one level.

use super::{Neighbours, Plain};

/// Not reached yet.
const UNKNOWN: u16 = u16::MAX;

impl Plain {
    /// Gives each cell its receiver. The levels are carving's.
    pub(super) fn spread(&mut self, neighbours: Neighbours, marks: &[u8]) {
        self.find_ends(neighbours, marks);
        self.count_steps(neighbours);
        self.follow_counts(neighbours);
    }

    /// Outlets, and cells with a neighbour of lower level, which receive to the lowest: no steps from them.
    fn find_ends(&mut self, neighbours: Neighbours, marks: &[u8]) {
        let cells = self.levels.len();
        self.steps.clear();
        self.steps.resize(cells, UNKNOWN);
        self.queue.clear();
        for cell in 0..cells {
            // Of equally low ones it is the first.
            let lowest = self
                .around(neighbours, cell)
                .min_by_key(|&neighbour| self.levels[neighbour]);
            let receiver = match lowest {
                _ if marks[cell] == 1 => cell,
                Some(lowest) if self.levels[lowest] < self.levels[cell] => lowest,
                _ => continue,
            };
            self.receivers[cell] = receiver as u16;
            self.steps[cell] = 0;
            self.queue.push_back(cell as u16);
        }
    }

    /// The fewest steps from every other cell to one of these.
    fn count_steps(&mut self, neighbours: Neighbours) {
        while let Some(cell) = self.queue.pop_front() {
            let cell = usize::from(cell);
            for neighbour in self.around(neighbours, cell) {
                if self.steps[neighbour] == UNKNOWN && self.levels[neighbour] == self.levels[cell] {
                    self.steps[neighbour] = self.steps[cell] + 1;
                    self.queue.push_back(neighbour as u16);
                }
            }
        }
    }

    /// They receive to the first neighbour of their level that has one step less to go.
    fn follow_counts(&mut self, neighbours: Neighbours) {
        for cell in 0..self.levels.len() {
            if self.steps[cell] == 0 {
                continue;
            }
            let receiver = self.around(neighbours, cell).find(|&neighbour| {
                self.levels[neighbour] == self.levels[cell]
                    && self.steps[neighbour] == self.steps[cell] - 1
            });
            self.receivers[cell] = receiver.expect("a way out") as u16;
        }
    }

    /// The neighbours of a cell, by ascending number.
    fn around(&self, neighbours: Neighbours, cell: usize) -> impl Iterator<Item = usize> {
        let (width, height) = (self.width, self.height);
        let (row, column) = (cell / width, cell % width);
        let steps: &[(isize, isize)] = match neighbours {
            Neighbours::Four => &[(-1, 0), (0, -1), (0, 1), (1, 0)],
            Neighbours::Eight => &[
                (-1, -1),
                (-1, 0),
                (-1, 1),
                (0, -1),
                (0, 1),
                (1, -1),
                (1, 0),
                (1, 1),
            ],
        };
        steps.iter().filter_map(move |&(down, along)| {
            // Before the first row or column a number wraps, and is past the last one.
            let row = row.wrapping_add_signed(down);
            let column = column.wrapping_add_signed(along);
            (row < height && column < width).then_some(row * width + column)
        })
    }
}
