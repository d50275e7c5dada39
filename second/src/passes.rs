//! Rules 3 and 4: crossings, the pass between two basins, and the chosen passes.

use crate::basins::Basins;
use crate::ground::{Basin, Cell, Ground};
use crate::groups::Groups;
use crate::neighbours::Neighbours;

/// Two neighbours in different basins.
/// The order of the fields is the order of comparison: height, lesser cell, greater cell.
#[derive(Clone, Copy, Debug, PartialEq, Eq, PartialOrd, Ord)]
pub struct Crossing {
    pub height: i32,
    pub lesser: Cell,
    pub greater: Cell,
}

/// Rule 3: all crossings of the tile, over the neighbours asked for.
pub fn crossings(neighbours: Neighbours, ground: &Ground, basins: &Basins) -> Vec<Crossing> {
    let mut crossings = Vec::new();
    for lesser in ground.cells() {
        for greater in neighbours.of(lesser, ground.size) {
            if lesser < greater && basins.of(lesser) != basins.of(greater) {
                crossings.push(Crossing {
                    height: ground.height(lesser).max(ground.height(greater)),
                    lesser,
                    greater,
                });
            }
        }
    }
    crossings
}

/// Rule 3: the least crossing between any two basins that have one, in ascending order.
pub fn passes(crossings: &[Crossing], basins: &Basins) -> Vec<Crossing> {
    let mut by_pair: Vec<((Basin, Basin), Crossing)> = crossings
        .iter()
        .map(|&crossing| (pair(crossing, basins), crossing))
        .collect();
    by_pair.sort();
    // The least crossing of a pair now comes first, and the first is the one kept.
    by_pair.dedup_by_key(|&mut (pair, _)| pair);
    let mut passes: Vec<Crossing> = by_pair.into_iter().map(|(_, pass)| pass).collect();
    passes.sort();
    passes
}

/// The two basins of a crossing, the same for either direction.
pub fn pair(crossing: Crossing, basins: &Basins) -> (Basin, Basin) {
    let (one, other) = (basins.of(crossing.lesser), basins.of(crossing.greater));
    (one.min(other), one.max(other))
}

/// Rule 4: the chosen passes, out of all passes in ascending order.
pub fn chosen_passes(passes: &[Crossing], basins: &Basins, ground: &Ground) -> Vec<Crossing> {
    let mut groups = outlet_basins_joined(basins, ground);
    let mut chosen = Vec::new();
    for &pass in passes {
        let (one, other) = pair(pass, basins);
        if !groups.joined(one.index(), other.index()) {
            chosen.push(pass);
            groups.join(one.index(), other.index());
        }
    }
    chosen
}

/// Groups of basins before the first pass: all outlet basins in one, every other basin by itself.
fn outlet_basins_joined(basins: &Basins, ground: &Ground) -> Groups {
    let is_outlet_basin = |basin: &Basin| ground.is_outlet(basins.singular_cell(*basin));
    let mut groups = Groups::apart(basins.count());
    let mut outlet_basins = basins.all().filter(is_outlet_basin);
    if let Some(first) = outlet_basins.next() {
        outlet_basins.for_each(|basin| groups.join(first.index(), basin.index()));
    }
    groups
}
