//! The network of a tile: rules 1 to 10, one after the other, and sheet flow where it is asked for.

use crate::basins::basins;
use crate::carving::{carve, outflows};
use crate::first_receivers::first_receivers;
use crate::flow::{drainage, levels, order, wet};
use crate::ground::{Basin, Cell, Ground};
use crate::manner::Manner;
use crate::neighbours::Neighbours;
use crate::passes::{chosen_passes, crossings, passes};
use crate::refusal::Refusal;
use crate::sheet::sheet;

/// All that a network record holds, as lists.
#[derive(Clone, Debug, PartialEq, Eq)]
pub struct Network {
    pub receivers: Vec<Cell>,
    pub basins: Vec<Basin>,
    pub order: Vec<Cell>,
    pub levels: Vec<i32>,
    pub drainage: Vec<u32>,
    pub wet: Vec<u8>,
}

/// The network of a ground that comes as lists, refused ones included.
pub fn network_of_lists(ground: &Ground) -> Result<Network, Refusal> {
    ground.judge()?;
    Ok(network(ground))
}

/// Document 01's network of a ground that has been judged.
pub fn network(ground: &Ground) -> Network {
    network_by(Neighbours::Four, Manner::Carve, ground)
}

/// The network over the neighbours and in the manner asked for, of a ground that has been judged.
/// Basins, levels and wet are those of carving in either manner.
pub fn network_by(neighbours: Neighbours, manner: Manner, ground: &Ground) -> Network {
    let first_receivers = first_receivers(neighbours, ground);
    let basins = basins(&first_receivers);
    let crossings = crossings(neighbours, ground, &basins);
    let passes = passes(&crossings, &basins);
    let chosen = chosen_passes(&passes, &basins, ground);
    let outflows = outflows(&chosen, &basins, ground);
    let carved = carve(&first_receivers, &outflows);
    let levels = levels(&carved, &order(&carved), ground);
    let wet = wet(&levels, ground);
    let receivers = match manner {
        Manner::Carve => carved,
        Manner::Sheet => sheet(neighbours, ground, &levels),
    };
    let order = order(&receivers);
    let drainage = drainage(&receivers, ground);
    Network {
        receivers,
        basins: basins.of_cells,
        order,
        levels,
        drainage,
        wet,
    }
}
