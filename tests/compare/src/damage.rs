//! Damaged records, of every kind in the table of refusals and of several kinds at once.

use second::ground::{Ground, Size};
use second::record;

use crate::chance::Chance;
use crate::families::{any_ground, ground};
use crate::lake_families::too_deep;
use crate::{outlets, reliefs};

/// A record and the size that it was made from, which says how much room to lend.
pub struct Damaged {
    pub record: Vec<u8>,
    pub size: Size,
}

/// A kind of damage. Most of what it makes is refused.
pub struct Damage {
    pub name: &'static str,
    pub make: fn(&mut Chance) -> Damaged,
}

/// Every kind of damage.
pub const DAMAGES: [Damage; 12] = [
    damage("bad size", |chance| of_record(chance, spoil_size)),
    damage("size just too large", size_just_too_large),
    damage("under 16 bytes", |chance| {
        of_record(chance, keep_under_16_bytes)
    }),
    damage("wrong length", |chance| of_record(chance, spoil_length)),
    damage("wrong distance", |chance| of_record(chance, spoil_distance)),
    damage("bad heights", |chance| of_ground(chance, &[spoil_heights])),
    damage("bad marks", |chance| of_ground(chance, &[spoil_marks])),
    damage("bad heights and marks", |chance| {
        of_ground(chance, &[spoil_heights, spoil_marks])
    }),
    damage("no outlet", |chance| of_ground(chance, &[drop_outlets])),
    damage("several faults", several_faults),
    damage("flipped bits", |chance| of_record(chance, flip_bits)),
    damage("noise", noise),
];

/// Damage to grounds whose lake is too deep, which is judged after everything else about the ground.
pub const LAKE_DAMAGES: [Damage; 1] = [damage("too deep, and bad cells", |chance| {
    let ground = too_deep(chance);
    let fault = chance.pick(&[spoil_heights as GroundFault, spoil_marks, drop_outlets]);
    spoiled(chance, ground, &[fault])
})];

const fn damage(name: &'static str, make: fn(&mut Chance) -> Damaged) -> Damage {
    Damage { name, make }
}

/// What spoils a ground before it is written.
type GroundFault = fn(&mut Chance, &mut Ground);

/// What spoils a record.
type RecordFault = fn(&mut Chance, Vec<u8>) -> Vec<u8>;

/// A ground of any family, its lists spoiled, then written as a record.
fn of_ground(chance: &mut Chance, faults: &[GroundFault]) -> Damaged {
    let ground = any_ground(chance);
    spoiled(chance, ground, faults)
}

fn spoiled(chance: &mut Chance, mut ground: Ground, faults: &[GroundFault]) -> Damaged {
    for fault in faults {
        fault(chance, &mut ground);
    }
    Damaged {
        record: record::bytes(&ground),
        size: ground.size,
    }
}

/// A sound record, its bytes spoiled.
fn of_record(chance: &mut Chance, fault: RecordFault) -> Damaged {
    let Damaged { record, size } = of_ground(chance, &[]);
    let record = fault(chance, record);
    Damaged { record, size }
}

/// Faults of every kind, each there or not, to try the order among them.
fn several_faults(chance: &mut Chance) -> Damaged {
    let mut ground_faults: Vec<GroundFault> = Vec::new();
    for fault in [drop_outlets, spoil_marks, spoil_heights] {
        if chance.one_in(2) {
            ground_faults.push(fault);
        }
    }
    let mut damaged = of_ground(chance, &ground_faults);
    let record_faults: [RecordFault; 3] = [spoil_distance, spoil_size, spoil_length];
    for fault in record_faults {
        if chance.one_in(3) {
            damaged.record = fault(chance, damaged.record);
        }
    }
    damaged
}

/// Heights out of range, in one to four cells.
fn spoil_heights(chance: &mut Chance, ground: &mut Ground) {
    for _ in 0..1 + chance.below(4) {
        let cell = chance.below(ground.heights.len());
        ground.heights[cell] = match chance.below(6) {
            0 => 8_000_001,
            1 => -8_000_001,
            2 => i32::MIN,
            3 => i32::MAX,
            4 => chance.between(8_000_001, i32::MAX),
            _ => chance.between(i32::MIN, -8_000_001),
        };
    }
}

/// Marks that are neither 0 nor 1, in one to four cells.
fn spoil_marks(chance: &mut Chance, ground: &mut Ground) {
    for _ in 0..1 + chance.below(4) {
        let cell = chance.below(ground.marks.len());
        ground.marks[cell] = match chance.below(3) {
            0 => 2,
            1 => 255,
            _ => chance.between(2, 255) as u8,
        };
    }
}

/// Marks all 0.
fn drop_outlets(_: &mut Chance, ground: &mut Ground) {
    ground.marks.fill(0);
}

/// Where a record's trailer begins, if it has one.
fn trailer(record: &[u8]) -> Option<usize> {
    record.len().checked_sub(record::TRAILER)
}

/// A width, a height or both that no tile has.
fn spoil_size(chance: &mut Chance, mut record: Vec<u8>) -> Vec<u8> {
    let Some(trailer) = trailer(&record) else {
        return record;
    };
    let which = chance.below(3);
    for (side, at) in [(0, trailer), (1, trailer + 2)] {
        if which == side || which == 2 {
            let wrong: u16 = chance.pick(&[0, 65, 66, 128, 255, 256, 257, 4_096, 32_768, 65_535]);
            record[at..at + 2].copy_from_slice(&wrong.to_le_bytes());
        }
    }
    record
}

/// A record that is right in everything but its width or its height, which is 65 or a little more.
fn size_just_too_large(chance: &mut Chance) -> Damaged {
    let (long, short) = (chance.pick(&[65, 65, 66, 67]), 1 + chance.below(3));
    let (width, height) = chance.pick(&[(long, short), (short, long)]);
    let size = Size { width, height };
    let ground = ground(chance, size, reliefs::random, outlets::any);
    Damaged {
        record: record::bytes(&ground),
        size,
    }
}

/// 0 to 15 bytes: the first ones, the last ones, or zeros.
fn keep_under_16_bytes(chance: &mut Chance, record: Vec<u8>) -> Vec<u8> {
    let kept = chance.below(16);
    match chance.below(3) {
        0 => record[..kept].to_vec(),
        1 => record[record.len() - kept..].to_vec(),
        _ => vec![0; kept],
    }
}

/// Bytes too many or too few, at the front, at the end or within, or another size in the trailer.
fn spoil_length(chance: &mut Chance, mut record: Vec<u8>) -> Vec<u8> {
    let Some(trailer) = trailer(&record) else {
        return record;
    };
    let by = chance.pick(&[1, 1, 2, 7, 16, 100]).min(record.len());
    let at = chance.pick(&[0, trailer / 2, trailer, record.len()]);
    match chance.below(3) {
        0 => {
            let from = at.min(record.len() - by);
            record.drain(from..from + by);
        }
        1 => {
            let more: Vec<u8> = (0..by).map(|_| chance.number() as u8).collect();
            record.splice(at..at, more);
        }
        _ => {
            let size = [1 + chance.below(64) as u8, 0, 1 + chance.below(64) as u8, 0];
            record[trailer..trailer + 4].copy_from_slice(&size);
        }
    }
    record
}

/// One of the three distances wrong: a little, in its upper half, a bit, altogether, or another one's.
fn spoil_distance(chance: &mut Chance, mut record: Vec<u8>) -> Vec<u8> {
    let Some(trailer) = trailer(&record) else {
        return record;
    };
    let which = chance.below(3);
    let named = record::distances_named(&record);
    let right = named[which];
    let wrong = match chance.below(7) {
        0 => right.wrapping_add(1),
        1 => right.wrapping_sub(1),
        2 => right.wrapping_add(65_536),
        3 => right ^ (1 << chance.below(32)),
        4 => named[(which + 1) % 3],
        5 => 0,
        _ => chance.number() as u32,
    };
    let at = trailer + 4 + 4 * which;
    record[at..at + 4].copy_from_slice(&wrong.to_le_bytes());
    record
}

/// One to three bits the other way. What comes of it may be sound.
fn flip_bits(chance: &mut Chance, mut record: Vec<u8>) -> Vec<u8> {
    for _ in 0..1 + chance.below(3) {
        let byte = chance.below(record.len());
        record[byte] ^= 1 << chance.below(8);
    }
    record
}

/// Bytes that mean nothing, now and then longer than any record, with a small size at the end.
fn noise(chance: &mut Chance) -> Damaged {
    let size = any_ground(chance).size;
    let length = match chance.below(8) {
        0 => 28_689 + chance.below(20),
        1 => 16,
        _ => chance.below(2_000),
    };
    let zeros = chance.one_in(4);
    let mut record: Vec<u8> = (0..length)
        .map(|_| if zeros { 0 } else { chance.number() as u8 })
        .collect();
    if let (Some(trailer), true) = (trailer(&record), chance.one_in(2)) {
        let named = [size.width as u8, 0, size.height as u8, 0];
        record[trailer..trailer + 4].copy_from_slice(&named);
    }
    Damaged { record, size }
}
