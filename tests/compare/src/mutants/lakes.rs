//! Mutants of the call for lakes: one fault in what a lake is, in the order of the list, in what is
//! refused, or in what is written.

use second::ground::{Cell, Ground, Size};
use second::lake_list::{bytes, LAKE};
use second::lakes::{groups, listed, lower, split, volume, Lake, DEEPEST};
use second::record::judge_frame;
use second::refusal::Refusal;

use super::judging::{judged, must, DISTANCES, HEIGHTS, LENGTH, MARKS, OUTLETS};
use super::lake_stages::{call, depth_at_most, each, room_for, Stages, RIGHT};
use super::Mutant;
use crate::library::Library;

/// A library with some stages exchanged for wrong ones.
macro_rules! with {
    ($($stage:ident: $wrong:expr),+ $(,)?) => {
        |ground, room| call(&Stages { $($stage: $wrong,)+ ..RIGHT }, ground, room)
    };
}

/// A library with the table that judges the ground changed.
macro_rules! table {
    ($change:expr) => {
        with!(judge: |record, _| judged(record, usize::MAX, $change))
    };
}

/// A library with another place for refusal 10, out of the outermost lakes.
macro_rules! place {
    ($place:expr) => {
        with!(judge_list: |lakes, list, room| {
            let place: fn(&[Lake]) -> Cell = $place;
            depth_at_most(DEEPEST, lakes).map_err(|_| Refusal::Depth(place(lakes)))?;
            room_for(list, room / LAKE)
        })
    };
}

/// A library that alters each lake, those inside it before.
macro_rules! altered {
    ($alter:expr) => {
        with!(altered: |ground, lakes| each(ground, lakes, $alter))
    };
}

/// A library with another entry for each lake.
macro_rules! entry {
    ($change:expr) => {
        with!(bytes: |lake| {
            let mut entry = bytes(lake);
            let change: fn(&mut [u8; LAKE], &Lake) = $change;
            change(&mut entry, lake);
            entry
        })
    };
}

pub const MUTANTS: &[Mutant<Library>] = mutants![
    // what a lake is
    "a meadow is wet" => with!(wet_cells: |ground, network| {
        let wet = |cell: &Cell| {
            network.levels[cell.index()] >= ground.height(*cell) && !ground.is_outlet(*cell)
        };
        ground.cells().filter(wet).collect()
    }),
    "cells that touch at a corner are joined" => with!(groups: joined_at_corners),
    "the ends of two rows are joined" => with!(groups: joined_along_rows),
    "all cells of one level are one lake" => with!(groups: |cells, _| {
        Some(cells.to_vec()).filter(|cells| !cells.is_empty()).into_iter().collect()
    }),
    // the split
    "h is the least such height" => with!(split: least_split),
    "h is the greatest height of a cell" => with!(split: |ground, cells| {
        split(ground, cells)?;
        cells.iter().map(|&cell| ground.height(cell)).max()
    }),
    "cells at h are in the groups" =>
        with!(lower: |ground, cells, height| lower(ground, cells, height + 1)),
    "only cells lower than h by two" =>
        with!(lower: |ground, cells, height| lower(ground, cells, height - 1)),
    "heights compared as unsigned numbers" => with!(split: |ground, cells| {
        let mut unsigned = ground.clone();
        unsigned.heights.iter_mut().for_each(|height| *height ^= i32::MIN);
        split(&unsigned, cells).map(|height| height ^ i32::MIN)
    }),
    "a third group is left out" => altered!(|_, lake| lake.inside.truncate(2)),
    "lakes inside lakes inside are left out" => altered!(|_, lake| {
        lake.inside.iter_mut().for_each(|inner| inner.inside.clear());
    }),
    // the list
    "a lake before the lakes inside it" => with!(listed: before_those_inside),
    "outermost lakes by level" => with!(altered: |_, mut lakes| {
        lakes.sort_by_key(|lake| lake.level);
        lakes
    }),
    "greater least cell first among the groups" => altered!(|_, lake| lake.inside.reverse()),
    "groups by volume" => altered!(|_, lake| lake.inside.sort_by_key(|inner| inner.volume)),
    "outermost lakes after all others" => with!(listed: |lakes| {
        let inside = lakes.iter().flat_map(|lake| listed(&lake.inside));
        inside.chain(lakes).collect()
    }),
    "all lakes by least cell" => with!(listed: |lakes| {
        let mut list = listed(lakes);
        list.sort_by_key(|lake| lake.least());
        list
    }),
    "outermost lakes only" => with!(listed: |lakes| lakes.iter().collect()),
    "lakes that split are left out" => with!(listed: |lakes| {
        listed(lakes).into_iter().filter(|lake| lake.inside.is_empty()).collect()
    }),
    // 10
    "10: a lake of 64 refused" => with!(judge_list: |lakes, list, room| {
        depth_at_most(63, lakes)?;
        room_for(list, room / LAKE)
    }),
    "10: a lake of 65 accepted" => with!(judge_list: |lakes, list, room| {
        depth_at_most(65, lakes)?;
        room_for(list, room / LAKE)
    }),
    "10: only the first lake judged" => with!(judge_list: |lakes, list, room| {
        depth_at_most(DEEPEST, &lakes[..lakes.len().min(1)])?;
        room_for(list, room / LAKE)
    }),
    "10: more than 64 lakes refused" => with!(judge_list: |lakes, list, room| {
        must(list.len() <= DEEPEST, Refusal::Depth(lakes.first().map_or(Cell(0), Lake::least)))?;
        room_for(list, room / LAKE)
    }),
    "10: the place is 0" => place!(|_| Cell(0)),
    "10: the place is the first of all lakes" => place!(|lakes| lakes[0].least()),
    "10: the place is the last such lake" => place!(|lakes| {
        let last = lakes.iter().rfind(|lake| lake.depth() > DEEPEST);
        last.map_or(Cell(0), Lake::least)
    }),
    "10: the place is the greatest cell" => place!(|lakes| {
        let first = lakes.iter().find(|lake| lake.depth() > DEEPEST);
        first.map_or(Cell(0), |lake| lake.cells[lake.cells.len() - 1])
    }),
    // the order of refusals
    "refuses every tile" => |_, _| Refusal::Length.answer(),
    "3 judged before 10" => with!(judge_list: |lakes, list, room| {
        room_for(list, room / LAKE)?;
        depth_at_most(DEEPEST, lakes)
    }),
    "3 judged before 4, where not even one lake fits" => with!(judge: |record, room| {
        judge_frame(record)?;
        let ground = judged(record, usize::MAX, |_| ());
        must(room >= LAKE || ground.is_ok(), Refusal::Room)?;
        ground
    }),
    "10 judged before 5" => |record, room| {
        let with_any_marks = judged(record, usize::MAX, |tests| tests[MARKS] = |_, _| Ok(()));
        match with_any_marks.and_then(|ground| second::lakes::lakes(&ground)) {
            Err(too_deep @ Refusal::Depth(_)) => too_deep.answer(),
            _ => second::lakes_call(record, room),
        }
    },
    "7 judged before 2" => table!(|tests| tests.swap(LENGTH, DISTANCES)),
    "5 judged before 4" => table!(|tests| tests.swap(HEIGHTS, MARKS)),
    "6 judged before 5" => table!(|tests| tests.swap(MARKS, OUTLETS)),
    "5: every mark accepted" => table!(|tests| tests[MARKS] = |_, _| Ok(())),
    // the room
    "3: half a lake of room counts as one" => with!(judge_list: |lakes, list, room| {
        depth_at_most(DEEPEST, lakes)?;
        room_for(list, room.div_ceil(LAKE))
    }),
    "3: exact room refused" => with!(judge_list: |lakes, list, room| {
        depth_at_most(DEEPEST, lakes)?;
        room_for(list, room.saturating_sub(1) / LAKE)
    }),
    "3: an empty room refused without a lake" => with!(judge_list: |lakes, list, room| {
        depth_at_most(DEEPEST, lakes)?;
        must(room > 0, Refusal::Room)?;
        room_for(list, room / LAKE)
    }),
    "3: as many as fit are written" =>
        with!(judge_list: |lakes, _, _| depth_at_most(DEEPEST, lakes)),
    // an entry
    "the volume in 32 bits" => entry!(|entry, _| entry[12..].fill(0)),
    "the volume is level times cells" => entry!(|entry, lake| {
        let volume = i64::from(lake.level) * lake.cells.len() as i64;
        entry[8..].copy_from_slice(&volume.to_le_bytes());
    }),
    "the volume of a cell less" => altered!(|ground, lake| {
        lake.volume = volume(ground, lake.level, &lake.cells[1..]);
    }),
    "the volume up to the outermost level" => with!(altered: |ground, lakes| {
        lakes.into_iter().map(|lake| filled_to(ground, lake.level, lake)).collect()
    }),
    "a cell too few" => entry!(|entry, lake| {
        entry[4..6].copy_from_slice(&(lake.cells.len() as u16 - 1).to_le_bytes());
    }),
    "cells counted in 8 bits" => entry!(|entry, _| entry[5] = 0),
    "the cells of the lakes inside not counted" => entry!(|entry, lake| {
        let inside: usize = lake.inside.iter().map(|inner| inner.cells.len()).sum();
        entry[4..6].copy_from_slice(&((lake.cells.len() - inside) as u16).to_le_bytes());
    }),
    "the greatest cell" => entry!(|entry, lake| {
        entry[6..8].copy_from_slice(&lake.cells[lake.cells.len() - 1].0.to_le_bytes());
    }),
    "the lowest cell" => altered!(|ground, lake| {
        // The first of the cells is what is written as the least.
        lake.cells.sort_by_key(|&cell| (ground.height(cell), cell));
    }),
    "the level of the lake around" => altered!(|_, lake| {
        let around = lake.level;
        lake.inside.iter_mut().for_each(|inner| inner.level = around);
    }),
    "the level at which it splits" => altered!(|_, lake| {
        lake.level = lake.inside.first().map_or(lake.level, |inner| inner.level);
    }),
    "the level in 16 bits" => entry!(|entry, lake| {
        entry[..4].copy_from_slice(&i32::from(lake.level as i16).to_le_bytes());
    }),
    "number of cells and least cell exchanged" => entry!(|entry, _| entry[4..8].rotate_left(2)),
    "greatest byte first" => entry!(|entry, _| entry[..4].reverse()),
    // all bytes
    "an entry written before 10 is judged" => |ground, room| {
        let answer = second::lakes_call(ground, room);
        if let (10, Some(entry)) = (answer / 65_536, room.get_mut(..LAKE)) {
            entry.fill(0);
        }
        answer
    },
    "entries written before 3 is judged" => |ground, room| {
        let answer = second::lakes_call(ground, room);
        if answer / 65_536 == 3 {
            room.fill(0);
        }
        answer
    },
    "a byte past the list cleared" => |ground, room| {
        let answer = second::lakes_call(ground, room);
        if let (0, Some(past)) = (answer / 65_536, room.get_mut(LAKE * answer as usize)) {
            *past = 0;
        }
        answer
    },
    "the last byte not written" => |ground, room| {
        let before = room.to_vec();
        let answer = second::lakes_call(ground, room);
        if let 1..=65_535 = answer {
            let last = LAKE * answer as usize - 1;
            room[last] = before[last];
        }
        answer
    },
    "the answer is the length written" => |ground, room| {
        match second::lakes_call(ground, room) {
            answer if answer < 65_536 => LAKE as u32 * answer,
            answer => answer,
        }
    },
    "the answer is the number of outermost lakes" => |ground, room| {
        let answer = second::lakes_call(ground, room);
        match second::record::read(ground).and_then(|ground| second::lakes::lakes(&ground)) {
            Ok(lakes) if answer < 65_536 => lakes.len() as u32,
            _ => answer,
        }
    },
];

/// The lake and all inside it with the volumes that they have up to this level.
fn filled_to(ground: &Ground, level: i32, mut lake: Lake) -> Lake {
    lake.volume = volume(ground, level, &lake.cells);
    let inside = lake.inside.into_iter();
    lake.inside = inside
        .map(|inner| filled_to(ground, level, inner))
        .collect();
    lake
}

fn before_those_inside(lakes: &[Lake]) -> Vec<&Lake> {
    let mut list = Vec::new();
    for lake in lakes {
        list.push(lake);
        list.extend(before_those_inside(&lake.inside));
    }
    list
}

/// The least height at which the lower cells are two groups or more.
fn least_split(ground: &Ground, cells: &[Cell]) -> Option<i32> {
    let mut least = split(ground, cells)?;
    // Below a height that splits, another may do so too: what is lower than it is tried in its place.
    while let Some(lesser) = split(ground, &lower(ground, cells, least)) {
        least = lesser;
    }
    Some(least)
}

/// The groups that cells form if more of them count as neighbours.
fn joined_by(
    cells: &[Cell],
    size: Size,
    touch: fn((usize, usize), (usize, usize), Size) -> bool,
) -> Vec<Vec<Cell>> {
    let place = |cell: &Cell| (cell.index() / size.width, cell.index() % size.width);
    let mut all = groups(cells, size);
    let touching = |one: &[Cell], other: &[Cell]| {
        let pairs = one.iter().flat_map(|a| other.iter().map(move |b| (a, b)));
        pairs
            .into_iter()
            .any(|(a, b)| touch(place(a), place(b), size))
    };
    let mut at = 0;
    while at < all.len() {
        match (at + 1..all.len()).find(|&other| touching(&all[at], &all[other])) {
            Some(other) => {
                let more = all.remove(other);
                all[at].extend(more);
                all[at].sort();
            }
            None => at += 1,
        }
    }
    all
}

fn joined_at_corners(cells: &[Cell], size: Size) -> Vec<Vec<Cell>> {
    joined_by(
        cells,
        size,
        |(row, column), (other_row, other_column), _| {
            row.abs_diff(other_row) == 1 && column.abs_diff(other_column) == 1
        },
    )
}

fn joined_along_rows(cells: &[Cell], size: Size) -> Vec<Vec<Cell>> {
    joined_by(
        cells,
        size,
        |(row, column), (other_row, other_column), size| {
            let end_to_start = |a: (usize, usize), b: (usize, usize)| {
                a.0 + 1 == b.0 && a.1 + 1 == size.width && b.1 == 0
            };
            end_to_start((row, column), (other_row, other_column))
                || end_to_start((other_row, other_column), (row, column))
        },
    )
}
