//! Rules 7 to 10 and W-205 read once more, as slowly as they are written, on small tiles full of ties,
//! over the neighbours and in the manner asked for.

mod small_tiles;

use second::ground::{Cell, Ground, Size};
use second::manner::Manner;
use second::neighbours::Neighbours;
use second::network::{network, network_by, Network};
use small_tiles::small_tiles;

/// What can be asked for, one after the other.
fn all_asked() -> impl Iterator<Item = (Neighbours, Manner)> {
    let in_both = |neighbours| Manner::BOTH.map(|manner| (neighbours, manner));
    Neighbours::BOTH.into_iter().flat_map(in_both)
}

/// Each of the small tiles with all that can be asked for, and its network.
fn networks() -> impl Iterator<Item = (Neighbours, Ground, Network)> {
    small_tiles().into_iter().flat_map(|ground| {
        all_asked().map(move |(neighbours, manner)| {
            let network = network_by(neighbours, manner, &ground);
            (neighbours, ground.clone(), network)
        })
    })
}

/// A cell and all that lies above it, as rule 8 says it.
fn above(cell: Cell, network: &Network) -> Vec<Cell> {
    let mut order = vec![cell];
    for (giver, &receiver) in network.receivers.iter().enumerate() {
        if receiver == cell && Cell::at(giver) != cell {
            order.extend(above(Cell::at(giver), network));
        }
    }
    order
}

#[test]
fn the_order_is_that_of_rule_8() {
    for (_, ground, network) in networks() {
        let outlets = ground.cells().filter(|&cell| ground.is_outlet(cell));
        let wanted: Vec<Cell> = outlets.flat_map(|outlet| above(outlet, &network)).collect();
        assert_eq!(network.order, wanted);
    }
}

#[test]
fn a_level_is_the_greatest_height_on_the_way() {
    for (_, ground, network) in networks() {
        for start in ground.cells() {
            let (mut cell, mut greatest) = (start, ground.height(start));
            while !ground.is_outlet(cell) {
                cell = network.receivers[cell.index()];
                greatest = greatest.max(ground.height(cell));
            }
            assert_eq!(network.levels[start.index()], greatest);
        }
    }
}

/// Whoever may go over corners too has all the ways that there are without them.
#[test]
fn no_level_with_8_neighbours_is_above_that_with_4() {
    let mut lower = 0;
    for ground in small_tiles() {
        let [four, eight] = Neighbours::BOTH
            .map(|neighbours| network_by(neighbours, Manner::Carve, &ground).levels);
        for (with_4, with_8) in four.iter().zip(&eight) {
            assert!(with_8 <= with_4);
            lower += u32::from(with_8 < with_4);
        }
    }
    assert!(lower > 500, "{lower}");
}

#[test]
fn drainage_is_the_water_of_all_that_lies_above() {
    for (_, ground, network) in networks() {
        for cell in ground.cells() {
            let water = |above: &Cell| u32::from(ground.water[above.index()]);
            let wanted: u32 = above(cell, &network).iter().map(water).sum();
            assert_eq!(network.drainage[cell.index()], wanted);
        }
    }
}

/// The cells that are no higher than a cell and joined to it through such cells.
fn no_higher(neighbours: Neighbours, start: Cell, ground: &Ground) -> Vec<Cell> {
    let mut found = vec![start];
    let mut next = 0;
    while next < found.len() {
        for cell in neighbours.of(found[next], ground.size) {
            if ground.height(cell) <= ground.height(start) && !found.contains(&cell) {
                found.push(cell);
            }
        }
        next += 1;
    }
    found
}

#[test]
fn wet_is_where_every_way_out_climbs() {
    for (neighbours, ground, network) in networks() {
        for cell in ground.cells() {
            let dry = no_higher(neighbours, cell, &ground)
                .iter()
                .any(|&other| ground.is_outlet(other));
            assert_eq!(network.wet[cell.index()], u8::from(!dry));
        }
    }
}

#[test]
fn wet_neighbours_have_one_level() {
    for (neighbours, ground, network) in networks() {
        let wet = |cell: &Cell| network.wet[cell.index()] == 1;
        for cell in ground.cells().filter(wet) {
            for neighbour in neighbours.of(cell, ground.size).filter(wet) {
                assert_eq!(
                    network.levels[cell.index()],
                    network.levels[neighbour.index()]
                );
            }
        }
    }
}

/// Document 01's rule 10 called five more cells wet, of which 6 and 7 are neighbours with two levels.
/// They are level with their receivers, and no water stands on them.
#[test]
fn a_meadow_is_not_a_lake() {
    let ground = Ground {
        size: Size {
            width: 4,
            height: 3,
        },
        heights: vec![3, 2, 3, 2, 1, 2, 2, 3, 3, 2, 2, 3],
        marks: vec![1, 0, 0, 0, 1, 0, 0, 0, 0, 0, 0, 0],
        water: vec![1; 12],
    };
    let network = network(&ground);
    assert_eq!(network.wet, [0, 0, 0, 1, 0, 0, 0, 0, 0, 0, 0, 0]);
    for cell in [1, 6, 7, 9, 10] {
        let receiver = network.receivers[cell].index();
        assert_eq!(network.levels[cell], network.levels[receiver]);
        assert_eq!(network.levels[cell], ground.heights[cell]);
    }
    assert_ne!(network.levels[6], network.levels[7]);
}

#[test]
fn a_sheet_has_the_levels_the_basins_and_the_lakes_of_carving() {
    let mut differing = 0;
    for ground in small_tiles() {
        for neighbours in Neighbours::BOTH {
            let [carved, sheet] =
                Manner::BOTH.map(|manner| network_by(neighbours, manner, &ground));
            assert_eq!(sheet.levels, carved.levels);
            assert_eq!(sheet.basins, carved.basins);
            assert_eq!(sheet.wet, carved.wet);
            differing += u32::from(sheet.receivers != carved.receivers);
        }
    }
    assert!(differing > 1_000, "{differing}");
}

/// Whether so many steps through neighbours of one level, or fewer, lead from a cell to an outlet or to
/// a cell with a strictly lower neighbour level.
fn ends_within(
    neighbours: Neighbours,
    ground: &Ground,
    levels: &[i32],
    cell: Cell,
    steps: usize,
) -> bool {
    let level = |cell: Cell| levels[cell.index()];
    let of_cell = || neighbours.of(cell, ground.size);
    ground.is_outlet(cell)
        || of_cell().any(|other| level(other) < level(cell))
        || steps > 0
            && of_cell()
                .filter(|&other| level(other) == level(cell))
                .any(|other| ends_within(neighbours, ground, levels, other, steps - 1))
}

/// W-205 word for word, over tiles on which no count is great.
#[test]
fn a_sheet_has_the_receivers_of_w_205() {
    for ground in small_tiles()
        .iter()
        .filter(|ground| ground.size.cells() <= 12)
    {
        for neighbours in Neighbours::BOTH {
            let network = network_by(neighbours, Manner::Sheet, ground);
            let level = |cell: Cell| network.levels[cell.index()];
            let count = |cell: Cell| {
                (0..ground.size.cells())
                    .find(|&steps| ends_within(neighbours, ground, &network.levels, cell, steps))
            };
            for cell in ground.cells() {
                let of_cell = || neighbours.of(cell, ground.size);
                let lowest = of_cell().map(level).min().filter(|&low| low < level(cell));
                let wanted = match (ground.is_outlet(cell), lowest) {
                    (true, _) => Some(cell),
                    (false, Some(lowest)) => of_cell().find(|&other| level(other) == lowest),
                    (false, None) => of_cell().find(|&other| {
                        level(other) == level(cell)
                            && count(other).map(|one_less| one_less + 1) == count(cell)
                    }),
                };
                assert_eq!(Some(network.receivers[cell.index()]), wanted);
            }
        }
    }
}
