//! The kinds of answer that a default run has to see often.

use second::call::judge;
use second::lake_list::LAKE;
use second::manner::Manner;
use second::record::TRAILER;

use crate::cases::Specimen;

/// A refusal, in some kinds only where another one would have come without it.
pub struct Kind {
    pub name: &'static str,
    number: u32,
    /// Whether the other one would have come, given the record and the length of the room.
    hides: fn(&Specimen, usize) -> bool,
}

/// What any ground record can be refused for.
pub const OF_GROUND: [Kind; 7] = [
    refusal("1", 1),
    refusal("2", 2),
    refusal("3", 3),
    refusal("4", 4),
    refusal("5", 5),
    refusal("6", 6),
    refusal("7", 7),
];

/// What lakes are refused for, before their list is.
pub const OF_DEPTH: [Kind; 2] = [
    refusal("10", 10),
    Kind {
        name: "10 before 3",
        number: 10,
        hides: |_, room| room < FEWEST_TOO_DEEP * LAKE,
    },
];

/// So many lakes are there at least where one is 65 deep: each split has two groups or more.
const FEWEST_TOO_DEEP: usize = 2 * 64 + 1;

/// What a count of neighbours is refused for, before everything else.
pub const OF_COUNT: [Kind; 10] = [
    refusal("11", 11),
    Kind {
        name: "11 before 12",
        number: 11,
        hides: |specimen, _| Manner::asked_for(specimen.asked.manner).is_err(),
    },
    under_16_bytes("11 before 2 under 16 bytes", 11),
    before::<1>("11 before 1", 11),
    before::<2>("11 before 2", 11),
    before::<3>("11 before 3", 11),
    before::<4>("11 before 4", 11),
    before::<5>("11 before 5", 11),
    before::<6>("11 before 6", 11),
    before::<7>("11 before 7", 11),
];

/// What a manner is refused for, before everything but the count.
pub const OF_MANNER: [Kind; 9] = [
    refusal("12", 12),
    under_16_bytes("12 before 2 under 16 bytes", 12),
    before::<1>("12 before 1", 12),
    before::<2>("12 before 2", 12),
    before::<3>("12 before 3", 12),
    before::<4>("12 before 4", 12),
    before::<5>("12 before 5", 12),
    before::<6>("12 before 6", 12),
    before::<7>("12 before 7", 12),
];

const fn refusal(name: &'static str, number: u32) -> Kind {
    Kind {
        name,
        number,
        hides: |_, _| true,
    }
}

const fn under_16_bytes(name: &'static str, number: u32) -> Kind {
    Kind {
        name,
        number,
        hides: |specimen, _| specimen.record.len() < TRAILER,
    }
}

/// A refusal that comes before this other one, which judges the record or the room.
const fn before<const OTHER: u32>(name: &'static str, number: u32) -> Kind {
    Kind {
        name,
        number,
        hides: |specimen, room| {
            judge(&specimen.record, room).is_err_and(|other| other.number() == OTHER)
        },
    }
}

impl Kind {
    /// Whether an answer to such a record and room is of this kind.
    pub fn fits(&self, answer: u32, specimen: &Specimen, room: usize) -> bool {
        answer / 65_536 == self.number && (self.hides)(specimen, room)
    }
}

#[cfg(test)]
mod tests {
    use super::*;
    use crate::asked::{asked, Asked, DOCUMENT_01};

    /// A record, and what is asked for with it.
    fn specimen(asked: Asked, record: &[u8]) -> Specimen {
        Specimen {
            family: "by hand",
            seed: 0,
            index: 0,
            record: record.to_vec(),
            asked,
            rooms: Vec::new(),
        }
    }

    #[test]
    fn a_kind_is_a_refusal_and_a_room() {
        let [ten, ten_before_three] = OF_DEPTH;
        let nothing = specimen(DOCUMENT_01, &[]);
        let too_deep = 10 * 65_536 + 25;
        assert!(ten.fits(too_deep, &nothing, 70_000) && ten.fits(too_deep, &nothing, 0));
        assert!(ten_before_three.fits(too_deep, &nothing, 2_063));
        assert!(!ten_before_three.fits(too_deep, &nothing, 2_064));
        assert!(!ten.fits(3 * 65_536, &nothing, 0) && !ten.fits(10, &nothing, 0));
    }

    /// What is to be told of a refusal with 11 or 12 besides its number.
    fn kinds_of(number: u32, asked: Asked, record: &[u8], room: usize) -> Vec<&'static str> {
        let specimen = specimen(asked, record);
        let kinds = OF_COUNT.iter().chain(&OF_MANNER);
        let fitting = kinds.filter(|kind| kind.fits(number * 65_536, &specimen, room));
        let names = fitting.map(|kind| kind.name.trim_start_matches(&number.to_string()));
        names.filter(|name| !name.is_empty()).collect()
    }

    /// Sample A, and what is wrong with it.
    #[test]
    fn a_kind_is_what_would_have_come_without_it() {
        let sample_a = [
            5, 0, 0, 0, 1, 1, 0, 1, 0, 1, 0, 7, 0, 0, 0, 3, 0, 0, 0, 2, 0, 0, 0,
        ];
        let with = |at: usize, byte: u8| {
            let mut record = sample_a;
            record[at] = byte;
            record
        };
        for (number, asked) in [(11, asked(5, 1)), (12, asked(4, 3))] {
            let kinds = |record: &[u8], room| kinds_of(number, asked, record, room);
            assert_eq!(kinds(&sample_a, 43), [""; 0]);
            assert_eq!(kinds(&sample_a, 42), [" before 3"]);
            assert_eq!(kinds(&with(7, 65), 0), [" before 1"]);
            assert_eq!(kinds(&with(7, 2), 0), [" before 2"]);
            assert_eq!(kinds(&with(11, 8), 0), [" before 7"]);
            assert_eq!(kinds(&with(3, 1), 43), [" before 4"]);
            assert_eq!(kinds(&with(4, 2), 43), [" before 5"]);
            assert_eq!(kinds(&with(4, 0), 43), [" before 6"]);
            let under_16 = [" before 2 under 16 bytes", " before 2"];
            assert_eq!(kinds(&sample_a[..15], 43), under_16);
        }
        assert_eq!(kinds_of(11, asked(5, 3), &sample_a, 43), [" before 12"]);
        assert_eq!(kinds_of(3, DOCUMENT_01, &sample_a, 0), [""; 0]);
    }
}
