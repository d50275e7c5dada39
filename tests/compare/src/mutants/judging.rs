//! Mutants that judge wrongly. The table of refusals is a list of tests here: a mutant has another
//! test in the place of one, or two of them the other way round.

use second::ground::{judge_heights, judge_marks, judge_outlets, Cell, Ground};
use second::network_record;
use second::record::{distances, distances_named, length, lists, size_named, TRAILER};
use second::refusal::Refusal;

use super::{right, Mutant, NetworkCall};

/// A library with the table changed.
macro_rules! table {
    ($change:expr) => {
        with!(judge: |record, room| judged(record, room, $change))
    };
}

pub const MUTANTS: &[Mutant<NetworkCall>] = mutants![
    "refuses every tile" => |_, _, _| Refusal::Length.answer(),
    // each number, on both sides of its limits
    "1: width 65 accepted" => table!(|tests| tests[SIZE] = |record, _| sides_up_to(record, 65, 64)),
    "1: height 64 refused" => table!(|tests| tests[SIZE] = |record, _| sides_up_to(record, 64, 63)),
    "2: a longer record accepted" => table!(|tests| tests[LENGTH] = |record, _| {
        must(record.len() >= length(size_named(record)), Refusal::Length)
    }),
    "2: a record under 16 bytes refused with 1" => |known, ground, network| {
        match ground.len() {
            0..=15 => Refusal::Size.answer(),
            _ => right(known, ground, network),
        }
    },
    "7: only the first distance judged" => table!(|tests| tests[DISTANCES] = |record, _| {
        distances_agree(record, |named, right| named[0] == right[0])
    }),
    "7: only the lower half of a distance judged" => table!(|tests| tests[DISTANCES] = |record, _| {
        distances_agree(record, |named, right| named.map(lower_half) == right.map(lower_half))
    }),
    "3: a byte too little accepted" =>
        table!(|tests| tests[ROOM] = |record, room| TABLE[ROOM](record, room + 1)),
    "3: exact room refused" =>
        table!(|tests| tests[ROOM] = |record, room| TABLE[ROOM](record, room.saturating_sub(1))),
    "4: height 8,000,001 accepted" => table!(|tests| tests[HEIGHTS] = |record, _| {
        heights_allowed(record, |height| (-8_000_000..=8_000_001).contains(&height))
    }),
    "4: height -8,000,000 refused" => table!(|tests| tests[HEIGHTS] = |record, _| {
        heights_allowed(record, |height| (-7_999_999..=8_000_000).contains(&height))
    }),
    "4: the lowest 32-bit number negated" => table!(|tests| tests[HEIGHTS] = |record, _| {
        heights_allowed(record, |height| height.wrapping_abs() <= 8_000_000)
    }),
    "5: every mark accepted" => table!(|tests| tests[MARKS] = |_, _| Ok(())),
    "6: no outlet accepted" => table!(|tests| tests[OUTLETS] = |_, _| Ok(())),
    // places
    "4: the last bad height is the place" => table!(|tests| tests[HEIGHTS] = |record, _| {
        let bad = |height: &i32| !second::ground::HEIGHTS.contains(height);
        refused_at(ground(record).heights.iter().rposition(bad), Refusal::Height)
    }),
    "5: the last bad mark is the place" => table!(|tests| tests[MARKS] = |record, _| {
        refused_at(ground(record).marks.iter().rposition(|&mark| mark > 1), Refusal::Mark)
    }),
    // the order
    "2 judged before 1" => table!(|tests| tests.swap(SIZE, LENGTH)),
    "7 judged before 2" => table!(|tests| tests.swap(LENGTH, DISTANCES)),
    "3 judged before 7" => table!(|tests| tests.swap(DISTANCES, ROOM)),
    "4 judged before 3" => table!(|tests| tests.swap(ROOM, HEIGHTS)),
    "5 judged before 4" => table!(|tests| tests.swap(HEIGHTS, MARKS)),
    "6 judged before 5" => table!(|tests| tests.swap(MARKS, OUTLETS)),
];

/// One row of the table, for a record of 16 bytes or more and the length of the room lent.
pub type Test = fn(&[u8], usize) -> Result<(), Refusal>;

/// The rows in their order, which is that of their names.
const TABLE: [Test; 7] = [
    |record, _| size_named(record).judge(),
    |record, _| must(record.len() == length(size_named(record)), Refusal::Length),
    |record, _| distances_agree(record, |named, right| named == right),
    |record, room| {
        must(
            room >= network_record::length(size_named(record)),
            Refusal::Room,
        )
    },
    |record, _| judge_heights(&ground(record).heights),
    |record, _| judge_marks(&ground(record).marks),
    |record, _| judge_outlets(&ground(record).marks),
];
const SIZE: usize = 0;
pub const LENGTH: usize = 1;
pub const DISTANCES: usize = 2;
const ROOM: usize = 3;
pub const HEIGHTS: usize = 4;
pub const MARKS: usize = 5;
pub const OUTLETS: usize = 6;

/// A record judged by the changed table.
pub fn judged(record: &[u8], room: usize, change: fn(&mut [Test; 7])) -> Result<Ground, Refusal> {
    must(record.len() >= TRAILER, Refusal::Length)?;
    let mut tests = TABLE;
    change(&mut tests);
    tests.iter().try_for_each(|test| test(record, room))?;
    Ok(mended(ground(record)))
}

/// What a changed table let through is made sound, so that the stages can work on it.
fn mended(mut ground: Ground) -> Ground {
    for height in &mut ground.heights {
        *height = (*height).clamp(-8_000_000, 8_000_000);
    }
    for mark in &mut ground.marks {
        *mark = (*mark).min(1);
    }
    if !ground.marks.contains(&1) {
        ground.marks[0] = 1;
    }
    ground
}

fn ground(record: &[u8]) -> Ground {
    lists(record, size_named(record))
}

pub fn must(holds: bool, why: Refusal) -> Result<(), Refusal> {
    holds.then_some(()).ok_or(why)
}

fn refused_at(cell: Option<usize>, why: fn(Cell) -> Refusal) -> Result<(), Refusal> {
    cell.map_or(Ok(()), |cell| Err(why(Cell::at(cell))))
}

fn sides_up_to(record: &[u8], width: usize, height: usize) -> Result<(), Refusal> {
    let size = size_named(record);
    let allowed = (1..=width).contains(&size.width) && (1..=height).contains(&size.height);
    must(allowed, Refusal::Size)
}

fn distances_agree(record: &[u8], agree: fn([u32; 3], [u32; 3]) -> bool) -> Result<(), Refusal> {
    let right = distances(size_named(record));
    must(agree(distances_named(record), right), Refusal::Distance)
}

fn lower_half(distance: u32) -> u16 {
    distance as u16
}

fn heights_allowed(record: &[u8], allowed: fn(i32) -> bool) -> Result<(), Refusal> {
    let heights = ground(record).heights;
    let bad = heights.iter().position(|&height| !allowed(height));
    refused_at(bad, Refusal::Height)
}
