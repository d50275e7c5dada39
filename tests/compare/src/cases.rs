//! Cases: a seed and an index give one record, and what is asked for and the rooms that it is tried with.

use second::lake_list::LAKE;
use second::{network_record, record};

use crate::asked::{self, Asked};
use crate::chance::Chance;
use crate::damage::{Damage, Damaged, DAMAGES, LAKE_DAMAGES};
use crate::diagonal_families::DIAGONAL_FAMILIES;
use crate::families::{Family, FAMILIES};
use crate::lake_families::LAKE_FAMILIES;
use crate::sheet_families::SHEET_FAMILIES;

/// Where the records of a call come from, and what they are tried with.
pub struct Cases {
    families: &'static [&'static [Family]],
    damages: &'static [&'static [Damage]],
    /// What is asked for with a record.
    asked: fn(&mut Chance) -> Asked,
    rooms: fn(&mut Chance, &Damaged) -> Vec<usize>,
    /// How many rooms that gives for each record.
    pub rooms_each: usize,
    /// All that can be asked for.
    pub right: &'static [Asked],
}

/// For the network: room for a network record.
pub const NETWORK: Cases = Cases {
    families: &[&FAMILIES],
    damages: &[&DAMAGES],
    asked: |_| asked::DOCUMENT_01,
    rooms: network_rooms,
    rooms_each: 4,
    right: &[asked::DOCUMENT_01],
};

/// For the network over the neighbours and in the manner asked for.
pub const NETWORK_BY: Cases = Cases {
    families: &[&FAMILIES, &DIAGONAL_FAMILIES, &SHEET_FAMILIES],
    asked: asked::any,
    right: &asked::RIGHT,
    ..NETWORK
};

/// For the lakes: room for the list.
pub const LAKES: Cases = Cases {
    families: &[&FAMILIES, &LAKE_FAMILIES],
    damages: &[&DAMAGES, &LAKE_DAMAGES],
    asked: |_| asked::DOCUMENT_01,
    rooms: lakes_rooms,
    rooms_each: 6,
    right: &[asked::DOCUMENT_01],
};

/// One generated record. A call with one of its rooms is what the run counts as a case.
pub struct Specimen {
    pub family: &'static str,
    pub seed: u64,
    pub index: u64,
    pub record: Vec<u8>,
    /// What is asked for, by a call that is told so.
    pub asked: Asked,
    pub rooms: Vec<usize>,
}

impl Cases {
    /// The record with this index. The families take turns, the sound ones first.
    pub fn specimen(&self, seed: u64, index: u64) -> Specimen {
        let mut chance = Chance::of_case(seed, index);
        let sound = || self.families.iter().copied().flatten();
        let damages = || self.damages.iter().copied().flatten();
        let kinds = sound().count() + damages().count();
        let turn = (index % kinds as u64) as usize;
        let (family, made) = match sound().nth(turn) {
            Some(family) => (family.name, whole((family.make)(&mut chance))),
            None => {
                let damage = damages().nth(turn - sound().count());
                let damage = damage.expect("the turn is below the count of both");
                (damage.name, (damage.make)(&mut chance))
            }
        };
        Specimen {
            family,
            seed,
            index,
            rooms: (self.rooms)(&mut chance, &made),
            record: made.record,
            asked: (self.asked)(&mut chance),
        }
    }
}

fn whole(ground: second::ground::Ground) -> Damaged {
    Damaged {
        record: record::bytes(&ground),
        size: ground.size,
    }
}

/// Exact, a byte short, none, and longer.
fn network_rooms(chance: &mut Chance, made: &Damaged) -> Vec<usize> {
    let exact = network_record::length(made.size);
    let longer = exact + 1 + chance.below(64);
    vec![exact, exact - 1, 0, longer]
}

/// Exact, a byte short, a lake short, none, longer by less than a lake, and longer by more.
fn lakes_rooms(chance: &mut Chance, made: &Damaged) -> Vec<usize> {
    let lakes = match second::lakes_call(&made.record, &mut [0; 65_536]) {
        accepted if accepted < 65_536 => accepted as usize,
        // What is refused has no list, and any room will do.
        _ => chance.below(300),
    };
    let exact = LAKE * lakes;
    let less_than_a_lake = 1 + chance.below(LAKE - 1);
    let more_than_a_lake = LAKE + chance.below(64);
    vec![
        exact,
        exact.saturating_sub(1),
        exact.saturating_sub(LAKE),
        0,
        exact + less_than_a_lake,
        exact + more_than_a_lake,
    ]
}

#[cfg(test)]
mod tests {
    use super::*;
    use second::manner::Manner;
    use second::neighbours::Neighbours;
    use std::collections::HashMap;

    #[test]
    fn the_same_seed_and_index_give_the_same_record() {
        for cases in [NETWORK, LAKES, NETWORK_BY] {
            for index in 0..200 {
                let (one, other) = (cases.specimen(7, index), cases.specimen(7, index));
                assert_eq!(one.record, other.record);
                assert_eq!(one.asked, other.asked);
                assert_eq!(one.rooms, other.rooms);
                assert_eq!(one.rooms.len(), cases.rooms_each);
            }
        }
    }

    #[test]
    fn another_seed_gives_another_record() {
        for cases in [NETWORK, LAKES, NETWORK_BY] {
            let differs =
                |&index: &u64| cases.specimen(7, index).record != cases.specimen(8, index).record;
            assert!((0..200).filter(differs).count() > 150);
        }
    }

    #[test]
    fn every_sound_family_is_accepted() {
        let sound: Vec<&str> = FAMILIES.iter().map(|family| family.name).collect();
        for index in 0..20_000 {
            let specimen = NETWORK.specimen(3, index);
            if sound.contains(&specimen.family) {
                let judged = record::check(&specimen.record);
                assert!(judged.is_ok(), "{} {index}: {judged:?}", specimen.family);
            }
        }
    }

    /// Each family comes with all that can be asked for, with a wrong count, a wrong manner, and both.
    #[test]
    fn every_family_comes_with_every_kind_of_question() {
        let mut times: HashMap<(&str, Option<Asked>, bool, bool), u32> = HashMap::new();
        for index in 0..45 * 480 {
            let specimen = NETWORK_BY.specimen(3, index);
            let Asked { neighbours, manner } = specimen.asked;
            let right = Some(specimen.asked).filter(|asked| asked::RIGHT.contains(asked));
            let (count, manner) = (Neighbours::asked_for(neighbours), Manner::asked_for(manner));
            let kind = (specimen.family, right, count.is_ok(), manner.is_ok());
            *times.entry(kind).or_default() += 1;
        }
        assert_eq!(times.len(), 45 * 7);
        for (kind, times) in times {
            assert!(times >= 6, "{kind:?}: {times}");
        }
    }
}
