//! Rules 7 to 10: levels, order and drainage, which follow from the receivers, and wet, which follows
//! from the levels.

use crate::ground::{Cell, Ground};

/// The cells that receive to each cell, by ascending number. An outlet is not among its own.
fn givers(receivers: &[Cell]) -> Vec<Vec<Cell>> {
    let mut givers = vec![Vec::new(); receivers.len()];
    for (index, receiver) in receivers.iter().enumerate() {
        if receiver.index() != index {
            givers[receiver.index()].push(Cell::at(index));
        }
    }
    givers
}

/// Rule 8: outlets by ascending number, after each cell all that lies above it, depth first.
pub fn order(receivers: &[Cell]) -> Vec<Cell> {
    let givers = givers(receivers);
    let mut order = Vec::with_capacity(receivers.len());
    let outlets = (0..receivers.len())
        .map(Cell::at)
        .filter(|cell| receivers[cell.index()] == *cell);
    for outlet in outlets {
        let mut waiting = vec![outlet];
        while let Some(cell) = waiting.pop() {
            order.push(cell);
            // The last one pushed is the next one taken, so the least goes in last.
            waiting.extend(givers[cell.index()].iter().rev());
        }
    }
    order
}

/// Rule 7: the greater of a cell's height and its receiver's level.
/// In the order of rule 8 a cell comes after its receiver.
pub fn levels(receivers: &[Cell], order: &[Cell], ground: &Ground) -> Vec<i32> {
    let mut levels = ground.heights.clone();
    for cell in order {
        let receiver = receivers[cell.index()];
        levels[cell.index()] = ground.height(*cell).max(levels[receiver.index()]);
    }
    levels
}

/// Rule 9: each cell's water is added to every cell on its way, itself included.
pub fn drainage(receivers: &[Cell], ground: &Ground) -> Vec<u32> {
    let mut drainage = vec![0; receivers.len()];
    for start in ground.cells() {
        let water = u32::from(ground.water[start.index()]);
        let mut cell = start;
        drainage[cell.index()] += water;
        while receivers[cell.index()] != cell {
            cell = receivers[cell.index()];
            drainage[cell.index()] += water;
        }
    }
    drainage
}

/// Rule 10 as W-201 has it: 1 for a cell whose level is greater than its height.
pub fn wet(levels: &[i32], ground: &Ground) -> Vec<u8> {
    ground
        .cells()
        .map(|cell| u8::from(levels[cell.index()] > ground.height(cell)))
        .collect()
}
