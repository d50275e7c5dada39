//! The C calls that are compared, and what the comparison has to know of each.

use second::ground::Ground;
use second::lake_list::LAKE;
use second::neighbours::Neighbours;

use crate::asked::Asked;
use crate::cases::{self, Cases};
use crate::kinds::{Kind, OF_COUNT, OF_DEPTH, OF_GROUND, OF_MANNER};
use crate::library::Libraries;
use crate::{demand3, lake_laws};

/// A call as the comparison makes it: what is asked for, a ground record and a room in, one number back.
pub type Made<'a> = dyn Fn(Asked, &[u8], &mut [u8]) -> u32 + 'a;

/// One of the calls.
pub struct Call {
    /// Its name in the header.
    pub name: &'static str,
    /// Makes it in a set of libraries. One that isn't told what is asked for passes over it.
    pub make: fn(&Libraries, Asked, &[u8], &mut [u8]) -> u32,
    /// The records and rooms that it is tried with.
    pub cases: Cases,
    /// How many cases it has for a hundred that are asked for.
    pub share: u64,
    /// The kinds of answer that a default run has to see often.
    pub kinds: &'static [&'static [Kind]],
    /// What an accepted answer says, in words that follow its number.
    pub meaning: &'static str,
    /// How many bytes are written with an accepted answer.
    pub written: fn(u32) -> usize,
    /// What a byte of the room belongs to, with an accepted answer.
    pub part: fn(usize, u32) -> String,
    /// What is wrong with the bytes that were written, by brute force.
    pub judge: fn(Neighbours, &Ground, &[u8]) -> Result<(), String>,
    /// Its worked examples, one a line.
    pub examples: &'static str,
}

impl Call {
    /// The call of these libraries.
    pub fn of<'a>(
        &'a self,
        libraries: &'a Libraries,
    ) -> impl Fn(Asked, &[u8], &mut [u8]) -> u32 + 'a {
        |asked, ground, room| (self.make)(libraries, asked, ground, room)
    }

    pub fn kinds(&self) -> impl Iterator<Item = &'static Kind> {
        self.kinds.iter().copied().flatten()
    }
}

/// All of them.
pub const ALL: [&Call; 3] = [&NETWORK, &LAKES, &NETWORK_BY];

/// The network of a ground record.
pub const NETWORK: Call = Call {
    name: "askvimur_network",
    make: |libraries, _, ground, room| (libraries.askvimur_network)(ground, room),
    cases: cases::NETWORK,
    share: 100,
    kinds: &[&OF_GROUND],
    meaning: "that length written",
    written: |answer| answer as usize,
    part: network_section,
    judge: demand3::judge,
    examples: "",
};

/// The lakes of a ground record.
pub const LAKES: Call = Call {
    name: "askvimur_lakes",
    make: |libraries, _, ground, room| (libraries.askvimur_lakes)(ground, room),
    cases: cases::LAKES,
    share: 30,
    kinds: &[&OF_GROUND, &OF_DEPTH],
    meaning: "that many lakes written",
    written: |answer| LAKE * answer as usize,
    part: lake_field,
    judge: |_, ground, list| lake_laws::judge(ground, list),
    examples: include_str!("../../vectors/lakes.txt"),
};

/// The network of a ground record over the neighbours and in the manner asked for.
pub const NETWORK_BY: Call = Call {
    name: "askvimur_network_by",
    make: |libraries, Asked { neighbours, manner }, ground, room| {
        (libraries.askvimur_network_by)(neighbours, manner, ground, room)
    },
    cases: cases::NETWORK_BY,
    share: 240,
    kinds: &[&OF_GROUND, &OF_COUNT, &OF_MANNER],
    examples: include_str!("../../vectors/network_by.txt"),
    ..NETWORK
};

/// The section of a network record that a byte belongs to, and its entry there.
fn network_section(byte: usize, length: u32) -> String {
    let cells = (length as usize).saturating_sub(28) / 15;
    let sections = [
        ("receivers", 2),
        ("basins", 2),
        ("order", 2),
        ("levels", 4),
        ("drainage", 4),
        ("wet", 1),
    ];
    let mut start = 0;
    for (name, width) in sections {
        let end = start + width * cells;
        if byte < end {
            return format!("{name}, entry {}", (byte - start) / width);
        }
        start = end;
    }
    match byte < start + 28 {
        true => format!("trailer, byte {}", byte - start),
        false => "past the record".to_string(),
    }
}

/// The lake that a byte belongs to, and what it tells of it.
fn lake_field(byte: usize, lakes: u32) -> String {
    let (lake, byte) = (byte / LAKE, byte % LAKE);
    let field = match byte {
        0..=3 => "level",
        4..=5 => "number of cells",
        6..=7 => "least cell",
        _ => "volume",
    };
    match lake < lakes as usize {
        true => format!("lake {lake}, {field}"),
        false => "past the list".to_string(),
    }
}

#[cfg(test)]
mod tests {
    use super::*;

    #[test]
    fn each_byte_of_a_network_record_is_in_its_section() {
        for (byte, wanted) in [
            (0, "receivers, entry 0"),
            (3, "receivers, entry 1"),
            (4, "basins, entry 0"),
            (8, "order, entry 0"),
            (12, "levels, entry 0"),
            (19, "levels, entry 1"),
            (20, "drainage, entry 0"),
            (28, "wet, entry 0"),
            (29, "wet, entry 1"),
            (30, "trailer, byte 0"),
            (57, "trailer, byte 27"),
            (58, "past the record"),
        ] {
            assert_eq!(network_section(byte, 58), wanted);
        }
    }

    #[test]
    fn each_byte_of_a_list_of_lakes_is_in_its_lake() {
        for (byte, wanted) in [
            (0, "lake 0, level"),
            (3, "lake 0, level"),
            (4, "lake 0, number of cells"),
            (7, "lake 0, least cell"),
            (15, "lake 0, volume"),
            (16, "lake 1, level"),
            (32, "past the list"),
        ] {
            assert_eq!(lake_field(byte, 2), wanted);
        }
    }
}
