//! Mutants whose network is wrong over 8 neighbours: a fault in how drops are compared, in who is a
//! neighbour, or in the diagonal crossings.

use std::cmp::Reverse;
use std::collections::HashSet;

use second::basins::Basins;
use second::first_receivers::{first_receivers, steepness};
use second::ground::{Cell, Ground};
use second::neighbours::Neighbours::{self, Eight, Four};
use second::passes::{chosen_passes, crossings, pair, Crossing};

use super::step::Step;
use super::{right, Mutant, NetworkCall};

/// A library that compares drops by another number.
macro_rules! compared {
    ($key:expr) => {
        with!(first_receivers: |neighbours, ground| {
            receivers(neighbours, ground, |_| true, $key)
        })
    };
}

/// A library in which rule 1 takes only some of the steps.
macro_rules! taken {
    ($taken:expr) => {
        with!(first_receivers: |neighbours, ground| {
            receivers(neighbours, ground, $taken, |step| step.steepness())
        })
    };
}

/// A library with some crossings only.
macro_rules! crossed {
    ($kept:expr) => {
        with!(crossings: |neighbours, ground, basins| {
            let kept: fn(&Step) -> bool = $kept;
            let mut all = crossings(neighbours, ground, basins);
            all.retain(|crossing| kept(&Step::over(ground, crossing)));
            all
        })
    };
}

/// A library with another height for diagonal crossings.
macro_rules! height {
    ($height:expr) => {
        with!(crossings: |neighbours, ground, basins| {
            let height: fn(&Step) -> i32 = $height;
            let mut all = crossings(neighbours, ground, basins);
            for crossing in &mut all {
                let step = Step::over(ground, crossing);
                if step.is_diagonal() {
                    crossing.height = height(&step);
                }
            }
            all
        })
    };
}

pub const MUTANTS: &[Mutant<NetworkCall>] = mutants![
    // the count
    "8 answered with the network of 4" =>
        |(_, manner), ground, room| right((Four, manner), ground, room),
    "4 answered with the network of 8" =>
        |(_, manner), ground, room| right((Eight, manner), ground, room),
    "rule 1: diagonals with 4 too" =>
        with!(first_receivers: |_, ground| first_receivers(Eight, ground)),
    "rule 3: diagonals with 4 too" =>
        with!(crossings: |_, ground, basins| crossings(Eight, ground, basins)),
    // how steep it is
    "rule 1: drops compared as they are" => compared!(|step| step.drop()),
    "rule 1: a diagonal drop is divided by 7/5" => compared!(|step| step.divided_by(7, 5)),
    "rule 1: a diagonal drop is divided by 17/12" => compared!(|step| step.divided_by(17, 12)),
    "rule 1: a diagonal drop is divided by 99/70" => compared!(|step| step.divided_by(99, 70)),
    "rule 1: a diagonal drop is divided by 1.4142" =>
        compared!(|step| step.divided_by(14_142, 10_000)),
    "rule 1: a diagonal drop is divided by 2" => compared!(|step| step.divided_by(2, 1)),
    "rule 1: the diagonal drop's square is doubled" => compared!(|step| {
        step.drop() * step.drop() * if step.is_diagonal() { 2 } else { 1 }
    }),
    "rule 1: floats of 32 bits" => compared!(|step| {
        let length = if step.is_diagonal() { std::f32::consts::SQRT_2 } else { 1.0 };
        // Positive floats compare as their bits do.
        (step.drop() as f32 / length).to_bits()
    }),
    "rule 1: squares of 32 bits" => compared!(|step| {
        let square = (step.drop() as u32).wrapping_mul(step.drop() as u32);
        square.wrapping_mul(if step.is_diagonal() { 1 } else { 2 })
    }),
    "rule 1: squares of 32 bits that stop at the largest" =>
        compared!(|step| step.steepness().min(u64::from(u32::MAX))),
    "rule 1: a diagonal only where no straight one is lower" =>
        compared!(|step| (!step.is_diagonal(), step.drop())),
    "rule 1: a diagonal wherever one is lower" =>
        compared!(|step| (step.is_diagonal(), step.drop())),
    "rule 1: of equally steep diagonals the greater cell" => compared!(|step| {
        (step.steepness(), step.is_diagonal().then_some(step.to))
    }),
    "rule 1: of equally steep straight ones the greater cell" => compared!(|step| {
        (step.steepness(), (!step.is_diagonal()).then_some(step.to))
    }),
    // who is a neighbour
    "rule 1: no upper left neighbour" => taken!(|step| step.direction() != (-1, -1)),
    "rule 1: no upper neighbour" => taken!(|step| step.direction() != (-1, 0)),
    "rule 1: no upper right neighbour" => taken!(|step| step.direction() != (-1, 1)),
    "rule 1: no left neighbour" => taken!(|step| step.direction() != (0, -1)),
    "rule 1: no right neighbour" => taken!(|step| step.direction() != (0, 1)),
    "rule 1: no lower left neighbour" => taken!(|step| step.direction() != (1, -1)),
    "rule 1: no lower neighbour" => taken!(|step| step.direction() != (1, 0)),
    "rule 1: no lower right neighbour" => taken!(|step| step.direction() != (1, 1)),
    "rule 1: no way between two higher cells" => taken!(|step| {
        let [one, other] = step.beside();
        !step.is_diagonal() || one.min(other) <= step.ground.height(step.from)
    }),
    "rule 1: the last cell two rows above is a diagonal" => with!(first_receivers: wrapped_diagonals),
    // crossings
    "rule 3: no crossing is diagonal" => crossed!(|step| !step.is_diagonal()),
    "rule 3: no crossing to the lower left" => crossed!(|step| step.direction() != (1, -1)),
    "rule 3: no crossing to the lower right" => crossed!(|step| step.direction() != (1, 1)),
    "rule 3: no crossing to the right" => crossed!(|step| step.direction() != (0, 1)),
    "rule 3: no crossing downwards" => crossed!(|step| step.direction() != (1, 0)),
    "rule 3: a diagonal as high as its lesser cell" =>
        height!(|step| step.ground.height(step.from)),
    "rule 3: a diagonal as high as its greater cell" =>
        height!(|step| step.ground.height(step.to)),
    "rule 3: a diagonal as high as its lower cell" => height!(|step| {
        step.ground.height(step.from).min(step.ground.height(step.to))
    }),
    "rule 3: a diagonal no lower than both cells beside it" => height!(|step| {
        let [one, other] = step.beside();
        step.ground.height(step.from).max(step.ground.height(step.to)).max(one.min(other))
    }),
    "rule 3: of equally high crossings a straight one" => with!(crossings: straight_preferred),
    "rule 4: of equally high passes the straight ones first" =>
        with!(chosen_passes: |passes, basins, ground| {
            let mut sorted = passes.to_vec();
            sorted.sort_by_key(|pass| (pass.height, Step::over(ground, pass).is_diagonal(), *pass));
            chosen_passes(&sorted, basins, ground)
        }),
];

/// Rule 1 with some steps only, by another number: the greatest one, then the least cell.
fn receivers<K: Ord>(
    neighbours: Neighbours,
    ground: &Ground,
    taken: fn(&Step) -> bool,
    key: fn(&Step) -> K,
) -> Vec<Option<Cell>> {
    let receiver = |from: Cell| {
        let steps = neighbours
            .of(from, ground.size)
            .map(|to| Step { ground, from, to });
        steps
            .filter(|step| ground.height(step.to) < ground.height(from))
            .filter(|step| taken(step) && !ground.is_outlet(from))
            .min_by_key(|step| (Reverse(key(step)), step.to))
            .map(|step| step.to)
    };
    ground.cells().map(receiver).collect()
}

/// In the first column the number before the upper neighbour's is taken for the upper left one, though
/// it is in another row.
fn wrapped_diagonals(neighbours: Neighbours, ground: &Ground) -> Vec<Option<Cell>> {
    let mut found = first_receivers(neighbours, ground);
    for row in 2..ground.size.height {
        let from = Cell::at(row * ground.size.width);
        let to = Cell::at((row - 1) * ground.size.width - 1);
        let steepest = found[from.index()].map_or(0, |first| steepness(ground, from, first));
        let is_lower = ground.height(to) < ground.height(from) && !ground.is_outlet(from);
        if neighbours == Eight && is_lower && steepness(ground, from, to) > steepest {
            found[from.index()] = Some(to);
        }
    }
    found
}

/// Without the diagonal crossings that have an equally high straight one beside them, between the same
/// basins.
fn straight_preferred(neighbours: Neighbours, ground: &Ground, basins: &Basins) -> Vec<Crossing> {
    let mut all = crossings(neighbours, ground, basins);
    let key = |crossing: &Crossing| {
        let (one, other) = pair(*crossing, basins);
        (one.0, other.0, crossing.height)
    };
    let is_diagonal = |crossing: &Crossing| Step::over(ground, crossing).is_diagonal();
    let straight: HashSet<(u16, u16, i32)> = all
        .iter()
        .filter(|crossing| !is_diagonal(crossing))
        .map(key)
        .collect();
    all.retain(|crossing| !is_diagonal(crossing) || !straight.contains(&key(crossing)));
    all
}
