//! Wrong libraries, to try the harness itself: each is the second program with one fault, and there
//! is one for each kind of fault. A harness that lets one of them through would prove nothing about
//! the real library.

/// A network call with some stages exchanged for wrong ones.
macro_rules! with {
    ($($stage:ident: $wrong:expr),+ $(,)?) => {
        |known, ground, network| {
            let stages = $crate::mutants::Stages { $($stage: $wrong,)+ ..$crate::mutants::RIGHT };
            $crate::mutants::call(&stages, known, ground, network)
        }
    };
}

/// A table of mutants: what is wrong with each, and the wrong library or text.
macro_rules! mutants {
    ($($name:literal => $wrong:expr,)+) => {
        &[$($crate::mutants::Mutant { name: $name, wrong: $wrong },)+]
    };
}

#[macro_use]
mod asking;
mod counting;
mod diagonals;
pub mod following;
mod judging;
mod lake_stages;
mod lakes;
mod manners;
mod network;
mod sheet_stages;
mod sheets;
mod step;
mod writing;

use second::basins::{basins, Basins};
use second::carving::{carve, outflows, Outflow};
use second::first_receivers::first_receivers;
use second::flow::{drainage, levels, order, wet};
use second::ground::{Cell, Ground, Size};
use second::manner::Manner;
use second::neighbours::Neighbours;
use second::network::Network;
use second::network_record;
use second::passes::{chosen_passes, crossings, passes, Crossing};
use second::refusal::Refusal;
use second::sheet::sheet;

use crate::asked::Asked;
use crate::calls::{self, Call, Made};
use crate::comparison::compare;
use crate::tally::Tally;

/// Within so many cases every mutant has to be caught.
pub const MOST_CASES: u64 = 4_000;

/// A wrong library or a wrong text, and what is wrong with it.
#[derive(Clone, Copy)]
pub struct Mutant<W> {
    pub name: &'static str,
    pub wrong: W,
}

/// What is asked for, once it has been judged.
type Known = (Neighbours, Manner);

/// A network call once what is asked for has been judged, if it is told so.
type NetworkCall = fn(Known, &[u8], &mut [u8]) -> u32;

/// A network call that judges what is asked for itself.
type AskedCall = fn(Asked, &[u8], &mut [u8]) -> u32;

/// A call, and every wrong library for it.
pub type WrongCalls = (&'static Call, Vec<Mutant<Box<Made<'static>>>>);

/// Each call with its wrong libraries. What a network can have wrong, both network calls can.
pub fn all() -> [WrongCalls; 3] {
    let networks = [network::MUTANTS, judging::MUTANTS, writing::MUTANTS].concat();
    let of_network = made(&networks, |wrong, _, ground, room| {
        wrong((Neighbours::Four, Manner::Carve), ground, room)
    });
    let of_lakes = made(lakes::MUTANTS, |wrong, _, ground, room| wrong(ground, room));
    let of_flow = [&networks, diagonals::MUTANTS, sheets::MUTANTS].concat();
    let of_asking = [counting::MUTANTS, manners::MUTANTS].concat();
    let mut of_network_by = made(&of_flow, judged_first);
    of_network_by.extend(made(&of_asking, |wrong, asked, ground, room| {
        wrong(asked, ground, room)
    }));
    [
        (&calls::NETWORK, of_network),
        (&calls::LAKES, of_lakes),
        (&calls::NETWORK_BY, of_network_by),
    ]
}

/// Wrong libraries as the comparison makes their calls: given what is asked for, the record and the room.
fn made<W: Copy + 'static>(
    mutants: &[Mutant<W>],
    call: fn(W, Asked, &[u8], &mut [u8]) -> u32,
) -> Vec<Mutant<Box<Made<'static>>>> {
    let made = |&Mutant { name, wrong }: &Mutant<W>| {
        let wrong: Box<Made> =
            Box::new(move |asked, ground, room| call(wrong, asked, ground, room));
        Mutant { name, wrong }
    };
    mutants.iter().map(made).collect()
}

/// A network call with what is asked for judged before it, as it should be.
fn judged_first(call: NetworkCall, asked: Asked, ground: &[u8], room: &mut [u8]) -> u32 {
    match asked.judged() {
        Ok(known) => call(known, ground, room),
        Err(refusal) => refusal.answer(),
    }
}

/// After how many cases of the call's families a library is caught, if it is.
pub fn caught_after(
    call: &'static Call,
    library: &Made,
    seed: u64,
    most_cases: u64,
) -> Option<u64> {
    let mut tally = Tally::of(call);
    for index in 0.. {
        let specimen = call.cases.specimen(seed, index);
        if compare(call, library, &specimen, &mut tally).is_some() {
            return Some(tally.cases());
        }
        if tally.cases() >= most_cases {
            break;
        }
    }
    None
}

/// Rule 6 as a stage: first receivers and outflows in, receivers out.
type Carve = fn(&[Option<Cell>], &[Option<Outflow>]) -> Vec<Cell>;

/// The second program's stages, each of which a mutant may exchange for a wrong one.
struct Stages {
    judge: fn(&[u8], usize) -> Result<Ground, Refusal>,
    first_receivers: fn(Neighbours, &Ground) -> Vec<Option<Cell>>,
    basins: fn(&[Option<Cell>]) -> Basins,
    crossings: fn(Neighbours, &Ground, &Basins) -> Vec<Crossing>,
    passes: fn(&[Crossing], &Basins) -> Vec<Crossing>,
    chosen_passes: fn(&[Crossing], &Basins, &Ground) -> Vec<Crossing>,
    outflows: fn(&[Crossing], &Basins, &Ground) -> Vec<Option<Outflow>>,
    carve: Carve,
    /// W-205's receivers, out of the levels of carving.
    sheet: fn(Neighbours, &Ground, &[i32]) -> Vec<Cell>,
    order: fn(&[Cell]) -> Vec<Cell>,
    levels: fn(&[Cell], &[Cell], &Ground) -> Vec<i32>,
    drainage: fn(&[Cell], &Ground) -> Vec<u32>,
    /// Rule 10 needs no receivers; wrong ones of document 01's kind do.
    wet: fn(&[Cell], &[i32], &Ground) -> Vec<u8>,
}

/// The stages as they should be.
const RIGHT: Stages = Stages {
    judge: |record, room| judging::judged(record, room, |_| ()),
    first_receivers,
    basins,
    crossings,
    passes,
    chosen_passes,
    outflows,
    carve,
    sheet,
    order,
    levels,
    drainage,
    wet: |_, levels, ground| wet(levels, ground),
};

/// The C call with these stages.
fn call(stages: &Stages, known: Known, record: &[u8], room: &mut [u8]) -> u32 {
    match (stages.judge)(record, room.len()) {
        Ok(ground) => write(&stages.network(known, &ground), ground.size, room),
        Err(refusal) => refusal.answer(),
    }
}

/// The C call as it should be.
fn right(known: Known, record: &[u8], room: &mut [u8]) -> u32 {
    call(&RIGHT, known, record, room)
}

/// Writes as much of the record as there is room for.
fn write(network: &Network, size: Size, room: &mut [u8]) -> u32 {
    let bytes = network_record::bytes(network, size);
    let length = bytes.len().min(room.len());
    room[..length].copy_from_slice(&bytes[..length]);
    bytes.len() as u32
}

impl Stages {
    /// The network that these stages give.
    fn network(&self, (neighbours, manner): Known, ground: &Ground) -> Network {
        let first_receivers = (self.first_receivers)(neighbours, ground);
        let basins = (self.basins)(&first_receivers);
        let crossings = (self.crossings)(neighbours, ground, &basins);
        let passes = (self.passes)(&crossings, &basins);
        let chosen = (self.chosen_passes)(&passes, &basins, ground);
        let outflows = (self.outflows)(&chosen, &basins, ground);
        let carved = (self.carve)(&first_receivers, &outflows);
        let levels = (self.levels)(&carved, &(self.order)(&carved), ground);
        let receivers = match manner {
            Manner::Carve => carved,
            Manner::Sheet => (self.sheet)(neighbours, ground, &levels),
        };
        let mut order = (self.order)(&receivers);
        // Cells on a ring are in no order, and the record still needs its length.
        order.resize(receivers.len(), Cell(0));
        Network {
            drainage: (self.drainage)(&receivers, ground),
            wet: (self.wet)(&receivers, &levels, ground),
            receivers,
            basins: basins.of_cells,
            order,
            levels,
        }
    }
}

#[cfg(test)]
mod tests {
    use super::*;
    use crate::library::SECOND;

    #[test]
    fn the_right_stages_are_not_caught() {
        let staged: [(_, &Made); 3] = [
            (&calls::NETWORK, &|_, ground, room| {
                right((Neighbours::Four, Manner::Carve), ground, room)
            }),
            (&calls::LAKES, &|_, ground, room| {
                lake_stages::call(&lake_stages::RIGHT, ground, room)
            }),
            (&calls::NETWORK_BY, &|asked, ground, room| {
                judged_first(right, asked, ground, room)
            }),
        ];
        for (call, staged) in staged {
            assert_eq!(caught_after(call, staged, 1, MOST_CASES), None);
            let second = call.of(&SECOND);
            assert_eq!(caught_after(call, &second, 1, MOST_CASES), None);
        }
    }

    #[test]
    fn every_mutant_is_caught() {
        for (call, mutants) in all() {
            for (mutant, seed) in mutants.iter().flat_map(|mutant| [(mutant, 1), (mutant, 2)]) {
                let caught = caught_after(call, &mutant.wrong, seed, MOST_CASES);
                assert!(caught.is_some(), "seed {seed} misses: {}", mutant.name);
            }
        }
    }

    /// Document 01's impostors, as far as they make a C call, and where the paper misleads.
    #[test]
    fn the_faults_that_document_01_names_are_among_them() {
        for name in [
            "refuses every tile",
            "sample D's network for every 3 by 3 tile",
            "rule 6: each cell its own receiver",
            "rules 7 and 9: zeros for levels and drainage",
            "rule 3: the highest crossing is the pass",
            "rule 4: outlet basins are not joined",
            "rule 5: each basin over its own lowest pass",
            "rule 6: near cell not joined to far cell",
        ] {
            let [(call, mutants), ..] = all();
            let mutant = mutants.iter().find(|mutant| mutant.name == name);
            let library = &mutant.unwrap_or_else(|| panic!("no {name}")).wrong;
            let caught = caught_after(call, library, 3, 100);
            assert!(caught.is_some(), "missed: {name}");
        }
    }

    #[test]
    fn there_are_mutants_enough_and_no_name_comes_twice() {
        for (_, mutants) in all() {
            let mut names: Vec<&str> = mutants.iter().map(|mutant| mutant.name).collect();
            names.sort();
            names.dedup();
            assert_eq!(names.len(), mutants.len());
            assert!(names.len() >= 20);
        }
    }
}
