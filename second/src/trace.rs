//! Trace: a walk along a list of receivers from anybody, within a budget of steps.

use crate::ground::Cell;
use crate::refusal::Refusal;

/// Where a trace ends.
#[derive(Clone, Copy, Debug, PartialEq, Eq)]
pub enum Ending {
    Outlet(Cell),
    Stopped(Cell),
}

/// The answer of a trace that isn't refused.
#[derive(Clone, Copy, Debug, PartialEq, Eq)]
pub struct Trace {
    pub ending: Ending,
    pub steps: u32,
}

/// Follows the receivers from a cell. The cell's number is plain until it has been judged.
pub fn trace(receivers: &[u16], cell: u32, budget: u32) -> Result<Trace, Refusal> {
    if receivers.is_empty() || receivers.len() > 4_096 {
        return Err(Refusal::Length);
    }
    if cell as usize >= receivers.len() {
        return Err(Refusal::TracedCell);
    }
    let mut cell = Cell::at(cell as usize);
    let mut steps = 0;
    loop {
        let entry = Cell(receivers[cell.index()]);
        if entry.index() >= receivers.len() {
            return Err(Refusal::TracedEntry(cell));
        }
        if entry == cell {
            let ending = Ending::Outlet(cell);
            return Ok(Trace { ending, steps });
        }
        if steps == budget {
            let ending = Ending::Stopped(cell);
            return Ok(Trace { ending, steps });
        }
        if steps as usize == receivers.len() {
            // As many steps as cells and no end: the rest of the budget is spent on a ring.
            let ending = Ending::Stopped(walk_ring(receivers, cell, budget - steps));
            let steps = budget;
            return Ok(Trace { ending, steps });
        }
        cell = entry;
        steps += 1;
    }
}

/// The cell that so many steps on a ring lead to. Whole rounds change nothing and are left out.
fn walk_ring(receivers: &[u16], start: Cell, steps: u32) -> Cell {
    let next = |cell: Cell| Cell(receivers[cell.index()]);
    let mut round = 1;
    let mut cell = next(start);
    while cell != start {
        cell = next(cell);
        round += 1;
    }
    for _ in 0..steps % round {
        cell = next(cell);
    }
    cell
}
