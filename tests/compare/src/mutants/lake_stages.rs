//! The call for lakes in stages, for mutants to exchange one of them.

use second::ground::{Cell, Ground, Size};
use second::lake_list::{bytes, LAKE};
use second::lakes::{groups, listed, lower, split, volume, wet_cells, Lake, DEEPEST};
use second::network::{network, Network};
use second::refusal::Refusal;

use super::judging::{judged, must};

/// The second program's stages, each of which a mutant may exchange for a wrong one.
pub struct Stages {
    /// Given the record and the length of the room.
    pub judge: fn(&[u8], usize) -> Result<Ground, Refusal>,
    pub wet_cells: fn(&Ground, &Network) -> Vec<Cell>,
    pub groups: fn(&[Cell], Size) -> Vec<Vec<Cell>>,
    pub split: fn(&Ground, &[Cell]) -> Option<i32>,
    pub lower: fn(&Ground, &[Cell], i32) -> Vec<Cell>,
    /// What becomes of the outermost lakes, which is nothing where nothing is wrong.
    pub altered: fn(&Ground, Vec<Lake>) -> Vec<Lake>,
    pub listed: for<'a> fn(&'a [Lake]) -> Vec<&'a Lake>,
    /// Given the outermost lakes, the list and the length of the room.
    pub judge_list: fn(&[Lake], &[&Lake], usize) -> Result<(), Refusal>,
    pub bytes: fn(&Lake) -> [u8; LAKE],
}

/// The stages as they should be.
pub const RIGHT: Stages = Stages {
    judge: |record, _| judged(record, usize::MAX, |_| ()),
    wet_cells,
    groups,
    split,
    lower,
    altered: |_, lakes| lakes,
    listed,
    judge_list: |lakes, list, room| {
        depth_at_most(DEEPEST, lakes)?;
        room_for(list, room / LAKE)
    },
    bytes,
};

/// The C call with these stages. As much is written as there is room for.
pub fn call(stages: &Stages, record: &[u8], room: &mut [u8]) -> u32 {
    let written = (stages.judge)(record, room.len()).and_then(|ground| {
        let lakes = stages.outermost(&ground);
        let list = (stages.listed)(&lakes);
        (stages.judge_list)(&lakes, &list, room.len())?;
        for (lake, entry) in list.iter().zip(room.chunks_mut(LAKE)) {
            let length = entry.len();
            entry.copy_from_slice(&(stages.bytes)(lake)[..length]);
        }
        Ok(list.len() as u32)
    });
    written.unwrap_or_else(|refusal| refusal.answer())
}

impl Stages {
    /// The outermost lakes that these stages give.
    fn outermost(&self, ground: &Ground) -> Vec<Lake> {
        let network = network(ground);
        let wet = (self.wet_cells)(ground, &network);
        let lakes = (self.groups)(&wet, ground.size).into_iter();
        let lakes = lakes.map(|cells| {
            let level = network.levels[cells[0].index()];
            self.lake(ground, level, cells, DEEPEST + 3)
        });
        (self.altered)(ground, lakes.collect())
    }

    /// A lake with those inside it, looked into as far as a wrong limit of depth may ask for.
    fn lake(&self, ground: &Ground, level: i32, cells: Vec<Cell>, most: usize) -> Lake {
        let inside = match (self.split)(ground, &cells) {
            Some(height) if most > 1 => {
                let lower = (self.lower)(ground, &cells, height);
                let groups = (self.groups)(&lower, ground.size).into_iter();
                groups
                    .map(|group| self.lake(ground, height, group, most - 1))
                    .collect()
            }
            _ => Vec::new(),
        };
        Lake {
            level,
            volume: volume(ground, level, &cells),
            cells,
            inside,
        }
    }
}

/// Refusal 10.
pub fn depth_at_most(deepest: usize, lakes: &[Lake]) -> Result<(), Refusal> {
    match lakes.iter().find(|lake| lake.depth() > deepest) {
        Some(first) => Err(Refusal::Depth(first.least())),
        None => Ok(()),
    }
}

/// Refusal 3, where so many lakes fit.
pub fn room_for(list: &[&Lake], fit: usize) -> Result<(), Refusal> {
    must(list.len() <= fit, Refusal::Room)
}

/// All lakes altered, those inside before the lake itself.
pub fn each(ground: &Ground, lakes: Vec<Lake>, alter: fn(&Ground, &mut Lake)) -> Vec<Lake> {
    let altered = lakes.into_iter().map(|mut lake| {
        lake.inside = each(ground, lake.inside, alter);
        alter(ground, &mut lake);
        lake
    });
    altered.collect()
}
