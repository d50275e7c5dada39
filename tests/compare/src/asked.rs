//! What a call is asked for besides a record and a room: how many neighbours, and which manner. There are
//! those that can be asked for, and all kinds of others.

use std::fmt;

use second::call::asked_for;
use second::manner::Manner;
use second::neighbours::Neighbours;
use second::refusal::Refusal;

use crate::chance::Chance;

/// A count of neighbours and a manner, as a caller hands them over.
#[derive(Clone, Copy, Debug, PartialEq, Eq, Hash)]
pub struct Asked {
    pub neighbours: u32,
    pub manner: u32,
}

/// The manners by their numbers.
pub const CARVE: u32 = 1;
pub const SHEET: u32 = 2;

/// What document 01 has, and every call that isn't told.
pub const DOCUMENT_01: Asked = asked(4, CARVE);

/// All that can be asked for.
pub const RIGHT: [Asked; 4] = [
    asked(8, SHEET),
    asked(4, SHEET),
    asked(8, CARVE),
    DOCUMENT_01,
];

pub const fn asked(neighbours: u32, manner: u32) -> Asked {
    Asked { neighbours, manner }
}

impl Asked {
    /// What that means, unless the count or the manner can't be asked for.
    pub fn judged(self) -> Result<(Neighbours, Manner), Refusal> {
        asked_for(self.neighbours, self.manner)
    }
}

impl fmt::Display for Asked {
    fn fmt(&self, to: &mut fmt::Formatter) -> fmt::Result {
        write!(to, "neighbours {}, manner {}", self.neighbours, self.manner)
    }
}

/// Half of all records come with what can be asked for. Of 24 five come with a wrong count, six with a wrong
/// manner and one with both. The console's call has 4 neighbours and carving too, so they come least.
pub fn any(chance: &mut Chance) -> Asked {
    let [sheet_8, sheet_4, carved_8, carved_4] = RIGHT;
    let right = chance.pick(&[
        sheet_8, sheet_8, sheet_4, sheet_4, carved_8, carved_8, carved_4,
    ]);
    let wrong = asked(
        wrong(chance, &[8, 4], &[0, 1, 2, 3, 5, 6, 7, 9, 10, 12, 16, 32]),
        wrong(chance, &[SHEET, CARVE], &[0, 0, 3, 3, 4, 5, 8, 16]),
    );
    match chance.below(24) {
        0..=4 => asked(wrong.neighbours, right.manner),
        5..=10 => asked(right.neighbours, wrong.manner),
        11 => wrong,
        _ => right,
    }
}

/// One of the small numbers, or a large one that might be taken for a right one: by some of its bits, with
/// another sign, in another order of bytes, or as text.
fn wrong(chance: &mut Chance, right: &[u32], small: &[u32]) -> u32 {
    let right = chance.pick(right);
    let higher = 1 + chance.below(65_535) as u32;
    match chance.below(8) {
        0..=2 => chance.pick(small),
        3 => right ^ 1 << chance.below(32),
        4 => right + 65_536 * chance.pick(&[1, 2, higher]),
        5 => right + (1 << 31),
        6 => right.wrapping_neg(),
        _ => chance.pick(&[
            u32::MAX,
            right << 16,
            right.swap_bytes(),
            u32::from(b'0') + right,
        ]),
    }
}

#[cfg(test)]
mod tests {
    use super::*;
    use std::collections::HashSet;

    /// What comes for a part of what is asked, where it isn't one of these.
    fn wrong_ones(part: fn(&Asked) -> u32, right: [u32; 2]) -> HashSet<u32> {
        let mut chance = Chance::of_case(1, 1);
        let all: Vec<Asked> = (0..8_000).map(|_| any(&mut chance)).collect();
        let wrong = all.iter().map(part).filter(|one| !right.contains(one));
        wrong.collect()
    }

    /// These small ones come, and large ones that each of the right ones might be read from.
    fn all_kinds_come(found: HashSet<u32>, small: &[u32], right: [u32; 2]) {
        let large = right.into_iter().flat_map(|one| {
            [
                one + 256,
                one + 65_536,
                one + 131_072,
                one + (1 << 31),
                one.wrapping_neg(),
                u32::MAX,
            ]
        });
        for one in small.iter().copied().chain(large) {
            assert!(found.contains(&one), "no {one}");
        }
        assert!(found.iter().any(|one| one.count_ones() > 4));
    }

    #[test]
    fn wrong_counts_of_every_kind_come() {
        let found = wrong_ones(|asked| asked.neighbours, [4, 8]);
        all_kinds_come(found, &[0, 1, 2, 3, 5, 6, 7, 9], [4, 8]);
    }

    #[test]
    fn wrong_manners_of_every_kind_come() {
        let found = wrong_ones(|asked| asked.manner, [CARVE, SHEET]);
        all_kinds_come(found, &[0, 3, 4, 5, 8], [CARVE, SHEET]);
    }

    #[test]
    fn what_is_right_and_what_is_wrong_come_as_often_as_they_should() {
        let mut chance = Chance::of_case(1, 2);
        let mut times = [0; 4];
        for _ in 0..24_000 {
            let asked = any(&mut chance);
            let counts = usize::from(Neighbours::asked_for(asked.neighbours).is_err());
            let manners = usize::from(Manner::asked_for(asked.manner).is_err());
            times[2 * counts + manners] += 1;
        }
        let [right, manner, count, both] = times;
        assert!((11_600..12_400).contains(&right), "{times:?}");
        assert!((5_700..6_300).contains(&manner), "{times:?}");
        assert!((4_700..5_300).contains(&count), "{times:?}");
        assert!((900..1_100).contains(&both), "{times:?}");
    }
}
