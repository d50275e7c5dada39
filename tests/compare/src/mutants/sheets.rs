//! Mutants whose sheet flow is wrong: a fault in the choice of the lowest neighbour, in the count of
//! steps, in the choice among equal counts, or in what else follows from the manner.

use second::basins::basins;
use second::flow;
use second::ground::{Cell, Ground};
use second::manner::Manner::{Carve, Sheet};
use second::neighbours::Neighbours::{self, Eight, Four};
use second::network::Network;
use second::sheet::sheet;

use super::network::drainage_on_rings;
use super::{sheet_stages, write, Known, Mutant, NetworkCall, RIGHT};

/// A library with some parts of sheet flow exchanged for wrong ones.
macro_rules! parts {
    ($($part:ident: $wrong:expr),+ $(,)?) => {
        with!(
            sheet: |neighbours, ground, levels| {
                let parts = sheet_stages::Parts { $($part: $wrong,)+ ..sheet_stages::RIGHT };
                parts.receivers(neighbours, ground, levels)
            },
            drainage: drainage_on_rings,
        )
    };
}

/// A library in which water runs down only some of the steps that lead lower.
macro_rules! down {
    ($taken:expr) => {
        parts!(down: |surface, from, to| {
            let taken: fn((isize, isize)) -> bool = $taken;
            surface.is_lower(from, to) && taken(surface.step(from, to).direction())
        })
    };
}

/// A library in which steps are counted over only some of those that stay level.
macro_rules! level {
    ($taken:expr) => {
        parts!(level: |surface, from, to| {
            let taken: fn((isize, isize)) -> bool = $taken;
            surface.is_level(from, to) && taken(surface.step(from, to).direction())
        })
    };
}

/// A library that alters a sheet's network, given the carved one.
macro_rules! beside_carving {
    ($change:expr) => {
        |known, ground, room| beside_carving(known, ground, room, $change)
    };
}

pub const MUTANTS: &[Mutant<NetworkCall>] = mutants![
    // the lowest neighbour
    "sheet: the greatest of equally low neighbours" =>
        parts!(lowest: |surface, _, to| (surface.level(to).into(), -i64::from(to.0))),
    "sheet: the least of the lower neighbours, low or not" => parts!(lowest: |_, _, _| (0, 0)),
    "sheet: the neighbour of lowest ground" =>
        parts!(lowest: |surface, _, to| (surface.ground.height(to).into(), 0)),
    "sheet: of equal levels the lowest ground" => parts!(lowest: |surface, _, to| {
        (surface.level(to).into(), surface.ground.height(to).into())
    }),
    "sheet: the steepest neighbour" => parts!(lowest: |surface, from, to| {
        (-(surface.step(from, to).steepness() as i64), 0)
    }),
    "sheet: of equal levels a straight one" => parts!(lowest: |surface, from, to| {
        (surface.level(to).into(), surface.step(from, to).is_diagonal().into())
    }),
    "sheet: levels compared as unsigned numbers" => parts!(
        down: |surface, from, to| (surface.level(to) as u32) < surface.level(from) as u32,
        lowest: |surface, _, to| ((surface.level(to) as u32).into(), 0),
    ),
    "sheet: levels compared in 16 bits" => parts!(
        down: |surface, from, to| (surface.level(to) as i16) < surface.level(from) as i16,
        lowest: |surface, _, to| ((surface.level(to) as i16).into(), 0),
    ),
    "sheet: a level neighbour is low enough" => parts!(
        down: |surface, from, to| surface.level(to) <= surface.level(from),
    ),
    "sheet: an outlet of the same level before a lower neighbour" => parts!(
        down: |surface, from, to| match surface.neighbours(from)
            .find(|&other| surface.is_outlet(other) && surface.is_level(from, other))
        {
            Some(outlet) => to == outlet,
            None => surface.is_lower(from, to),
        },
    ),
    "sheet: a lower outlet before lower ground" => parts!(lowest: |surface, _, to| {
        ((!surface.is_outlet(to)).into(), surface.level(to).into())
    }),
    // the count
    "sheet: an outlet of another level ends the count" => parts!(
        level: |surface, from, to| surface.is_level(from, to) || surface.is_outlet(to),
    ),
    "sheet: a cell beside an outlet of another level ends the count" => parts!(
        ends: |surface, cell| {
            (sheet_stages::RIGHT.ends)(surface, cell)
                || surface.neighbours(cell).any(|other| surface.is_outlet(other))
        },
        nearer: |count, other| other + 1 == count.max(1),
    ),
    "sheet: no outlet ends the count" => parts!(
        ends: |surface, cell| !surface.is_outlet(cell) && surface.has_lower(cell),
    ),
    "sheet: only an outlet ends the count" =>
        parts!(ends: |surface, cell| surface.is_outlet(cell)),
    "sheet: an outlet above lower ground doesn't end the count" => parts!(
        ends: |surface, cell| surface.is_outlet(cell) != surface.has_lower(cell),
    ),
    "sheet: a cell with lower ground beside it ends the count" => parts!(
        ends: |surface, cell| {
            let height = |cell| surface.ground.height(cell);
            surface.is_outlet(cell)
                || surface.has_lower(cell)
                || surface.neighbours(cell).any(|other| height(other) < height(cell))
        },
    ),
    "sheet: counts go over neighbours of any level" => parts!(level: |_, _, _| true),
    "sheet: counts go over wet cells only" => parts!(level: |surface, from, to| {
        surface.is_level(from, to) && surface.level(from) > surface.ground.height(from)
    }),
    "sheet: counts stop at 255" => parts!(kept: |count| count.min(255)),
    "sheet: a diagonal step is counted as one and a half" => with!(sheet: longer_diagonals),
    // the choice among counts
    "sheet: the greatest of those whose count is one less" =>
        parts!(first: |_, _, to| -i64::from(to.0)),
    "sheet: the count one less or equal" =>
        parts!(nearer: |count, other| other + 1 == count || other == count),
    "sheet: the count one more" => parts!(nearer: |count, other| other == count + 1),
    "sheet: of equal counts the lowest ground" =>
        parts!(first: |surface, _, to| surface.ground.height(to).into()),
    "sheet: of equal counts a straight one" => parts!(first: |surface, from, to| {
        surface.step(from, to).is_diagonal().into()
    }),
    "sheet: of equal counts an outlet" =>
        parts!(first: |surface, _, to| (!surface.is_outlet(to)).into()),
    "sheet: the neighbour that it is first reached from" => with!(sheet: first_reached),
    // levels
    "sheet: heights in the place of levels" =>
        with!(sheet: |neighbours, ground, _| sheet(neighbours, ground, &ground.heights)),
    // who is a neighbour
    "sheet: 4 neighbours for 8" => with!(sheet: |_, ground, levels| sheet(Four, ground, levels)),
    "sheet: 8 neighbours for 4" => with!(sheet: |_, ground, levels| sheet(Eight, ground, levels)),
    "sheet: no way down over a corner" => down!(|(down, along)| down == 0 || along == 0),
    "sheet: no steps over corners" => level!(|(down, along)| down == 0 || along == 0),
    "sheet: no way down between two higher cells" => parts!(down: |surface, from, to| {
        let step = surface.step(from, to);
        let [one, other] = step.beside();
        surface.is_lower(from, to) && (!step.is_diagonal() || one.min(other) <= surface.level(from))
    }),
    "sheet: no steps between two higher cells" => parts!(level: |surface, from, to| {
        let step = surface.step(from, to);
        let [one, other] = step.beside();
        surface.is_level(from, to) && (!step.is_diagonal() || one.min(other) <= surface.level(from))
    }),
    "sheet: the last cell of the row above is a neighbour" => with!(sheet: wrapped_rows),
    "sheet: no way down to the upper left" => down!(|direction| direction != (-1, -1)),
    "sheet: no way up the rows" => down!(|direction| direction != (-1, 0)),
    "sheet: no way down to the upper right" => down!(|direction| direction != (-1, 1)),
    "sheet: no way down to the left" => down!(|direction| direction != (0, -1)),
    "sheet: no way down to the right" => down!(|direction| direction != (0, 1)),
    "sheet: no way down to the lower left" => down!(|direction| direction != (1, -1)),
    "sheet: no way down the rows" => down!(|direction| direction != (1, 0)),
    "sheet: no way down to the lower right" => down!(|direction| direction != (1, 1)),
    "sheet: no steps to the upper left" => level!(|direction| direction != (-1, -1)),
    "sheet: no steps up the rows" => level!(|direction| direction != (-1, 0)),
    "sheet: no steps to the upper right" => level!(|direction| direction != (-1, 1)),
    "sheet: no steps to the left" => level!(|direction| direction != (0, -1)),
    "sheet: no steps to the right" => level!(|direction| direction != (0, 1)),
    "sheet: no steps to the lower left" => level!(|direction| direction != (1, -1)),
    "sheet: no steps down the rows" => level!(|direction| direction != (1, 0)),
    "sheet: no steps to the lower right" => level!(|direction| direction != (1, 1)),
    // what follows from the manner
    "sheet: the order is carving's" => beside_carving!(|sheet, carved, _| {
        sheet.order = carved.order;
    }),
    "sheet: the drainage is carving's" => beside_carving!(|sheet, carved, _| {
        sheet.drainage = carved.drainage;
    }),
    "sheet: the receivers are carving's" => beside_carving!(|sheet, carved, _| {
        sheet.receivers = carved.receivers;
    }),
    "sheet: basins follow the new receivers" => beside_carving!(|sheet, _, _| {
        let cells = (0..).map(Cell::at).zip(&sheet.receivers);
        let below: Vec<Option<Cell>> =
            cells.map(|(cell, &to)| Some(to).filter(|&to| to != cell)).collect();
        sheet.basins = basins(&below).of_cells;
    }),
    "sheet: dry cells are carved" => beside_carving!(|sheet, carved, ground| {
        carve_where(sheet, carved, ground, |_, wet| !wet);
    }),
    "sheet: wet cells are carved" => beside_carving!(|sheet, carved, ground| {
        carve_where(sheet, carved, ground, |_, wet| wet);
    }),
    "sheet: cells above a lower level are carved" => beside_carving!(|sheet, carved, ground| {
        carve_where(sheet, carved, ground, |drop, _| drop);
    }),
    "sheet: cells without a lower neighbour are carved" =>
        beside_carving!(|sheet, carved, ground| {
            carve_where(sheet, carved, ground, |drop, _| !drop);
        }),
];

/// The right network, a sheet's altered by what carving has.
fn beside_carving(
    (neighbours, manner): Known,
    record: &[u8],
    room: &mut [u8],
    change: fn(&mut Network, Network, &Ground),
) -> u32 {
    match (RIGHT.judge)(record, room.len()) {
        Ok(ground) => {
            let mut network = RIGHT.network((neighbours, manner), &ground);
            if manner == Sheet {
                let carved = RIGHT.network((neighbours, Carve), &ground);
                change(&mut network, carved, &ground);
            }
            write(&network, ground.size, room)
        }
        Err(refusal) => refusal.answer(),
    }
}

/// Takes carving's receivers in some cells, by whether the sheet runs down there and whether they are wet.
fn carve_where(
    sheet: &mut Network,
    carved: Network,
    ground: &Ground,
    take: fn(bool, bool) -> bool,
) {
    for cell in 0..sheet.receivers.len() {
        let receiver = sheet.receivers[cell].index();
        let runs_down = sheet.levels[receiver] < sheet.levels[cell];
        if take(runs_down, sheet.wet[cell] == 1) {
            sheet.receivers[cell] = carved.receivers[cell];
        }
    }
    sheet.order = flow::order(&sheet.receivers);
    sheet.order.resize(sheet.receivers.len(), Cell(0));
    sheet.drainage = drainage_on_rings(&sheet.receivers, ground);
}

/// Spreads from all ends at once, by ascending number: whoever reaches a cell first is its receiver.
fn first_reached(neighbours: Neighbours, ground: &Ground, levels: &[i32]) -> Vec<Cell> {
    let mut receivers = sheet(neighbours, ground, levels);
    let runs_down = |cell: Cell, to: Cell| levels[to.index()] < levels[cell.index()];
    let is_end = |&cell: &Cell| ground.is_outlet(cell) || runs_down(cell, receivers[cell.index()]);
    let mut reached: Vec<Cell> = ground.cells().filter(is_end).collect();
    let mut is_reached = vec![false; receivers.len()];
    for cell in &reached {
        is_reached[cell.index()] = true;
    }
    let mut next = 0;
    while next < reached.len() {
        let cell = reached[next];
        for other in neighbours.of(cell, ground.size) {
            if levels[other.index()] == levels[cell.index()] && !is_reached[other.index()] {
                is_reached[other.index()] = true;
                receivers[other.index()] = cell;
                reached.push(other);
            }
        }
        next += 1;
    }
    receivers
}

/// Counts in halves of a step, straight ones two and diagonal ones three, made smaller until none can be.
fn longer_diagonals(neighbours: Neighbours, ground: &Ground, levels: &[i32]) -> Vec<Cell> {
    let mut receivers = sheet(neighbours, ground, levels);
    let runs_down = |cell: Cell, to: Cell| levels[to.index()] < levels[cell.index()];
    let is_end = |cell: Cell| ground.is_outlet(cell) || runs_down(cell, receivers[cell.index()]);
    let mut halves: Vec<u32> = ground
        .cells()
        .map(|cell| if is_end(cell) { 0 } else { u32::MAX / 2 })
        .collect();
    let mut smaller = true;
    while std::mem::take(&mut smaller) {
        for cell in ground.cells() {
            let over = |other: Cell| {
                halves[other.index()] + 2 + u32::from(ground.size.is_diagonal(cell, other))
            };
            let nearest = neighbours
                .of(cell, ground.size)
                .filter(|other| levels[other.index()] == levels[cell.index()])
                .min_by_key(|&other| (over(other), other));
            if let Some(other) = nearest.filter(|&other| over(other) < halves[cell.index()]) {
                halves[cell.index()] = over(other);
                receivers[cell.index()] = other;
                smaller = true;
            }
        }
    }
    receivers
}

/// In the first column the number before is taken for a neighbour, though it is in another row.
fn wrapped_rows(neighbours: Neighbours, ground: &Ground, levels: &[i32]) -> Vec<Cell> {
    let mut receivers = sheet(neighbours, ground, levels);
    for row in 1..ground.size.height {
        let cell = row * ground.size.width;
        let lowest = levels[receivers[cell].index()].min(levels[cell]);
        if ground.marks[cell] == 0 && levels[cell - 1] < lowest {
            receivers[cell] = Cell::at(cell - 1);
        }
    }
    receivers
}
