//! Rules 5 and 6: the outflow of each inner basin, and the carving along its first way.

use crate::basins::Basins;
use crate::ground::{Basin, Cell, Ground};
use crate::passes::Crossing;

/// The first pass on a basin's way out: its cell inside the basin, and the other one.
#[derive(Clone, Copy, Debug, PartialEq, Eq)]
pub struct Outflow {
    pub near: Cell,
    pub far: Cell,
}

/// Rule 5: each basin's outflow. An outlet basin has none.
///
/// The chosen passes are walked from the outlet basins inwards.
/// A basin's only way out begins with the pass over which it is reached.
pub fn outflows(chosen: &[Crossing], basins: &Basins, ground: &Ground) -> Vec<Option<Outflow>> {
    let is_outlet_basin = |basin: Basin| ground.is_outlet(basins.singular_cell(basin));
    let into = ways_into(chosen, basins);
    let mut outflows: Vec<Option<Outflow>> = vec![None; basins.count()];
    let mut reached: Vec<Basin> = basins
        .all()
        .filter(|&basin| is_outlet_basin(basin))
        .collect();
    while let Some(basin) = reached.pop() {
        for &outflow in &into[basin.index()] {
            let upper = basins.of(outflow.near);
            if !is_outlet_basin(upper) && outflows[upper.index()].is_none() {
                outflows[upper.index()] = Some(outflow);
                reached.push(upper);
            }
        }
    }
    outflows
}

/// For each basin, the chosen passes that touch it, each seen as the other basin's outflow.
fn ways_into(chosen: &[Crossing], basins: &Basins) -> Vec<Vec<Outflow>> {
    let mut into = vec![Vec::new(); basins.count()];
    for pass in chosen {
        for (near, far) in [(pass.lesser, pass.greater), (pass.greater, pass.lesser)] {
            into[basins.of(far).index()].push(Outflow { near, far });
        }
    }
    into
}

/// Rule 6: the receivers, with an outlet's written as its own number.
pub fn carve(first_receivers: &[Option<Cell>], outflows: &[Option<Outflow>]) -> Vec<Cell> {
    let mut receivers: Vec<Cell> = first_receivers
        .iter()
        .enumerate()
        .map(|(index, first)| first.unwrap_or(Cell::at(index)))
        .collect();
    for outflow in outflows.iter().flatten() {
        let (mut cell, mut receiver) = (outflow.near, outflow.far);
        receivers[cell.index()] = receiver;
        while let Some(next) = first_receivers[cell.index()] {
            (cell, receiver) = (next, cell);
            receivers[cell.index()] = receiver;
        }
    }
    receivers
}
