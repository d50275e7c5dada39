//! Ground records: heights, marks, water, then a trailer of 16 bytes. Little-endian, no gaps.

use crate::ground::{Ground, Size};
use crate::refusal::Refusal;

/// The trailer: width, height and three distances.
pub const TRAILER: usize = 16;

/// The length of the largest ground record, that of a tile of 64 by 64.
pub const LARGEST: usize = 28_688;

/// The length of a ground record of this size: 7N + 16.
pub fn length(size: Size) -> usize {
    7 * size.cells() + TRAILER
}

/// The distances back from the trailer's first byte to heights, marks and water.
pub fn distances(size: Size) -> [u32; 3] {
    let cells = size.cells() as u32;
    [7 * cells, 3 * cells, 2 * cells]
}

/// Judges all of a ground record. The answer is its size.
pub fn check(record: &[u8]) -> Result<Size, Refusal> {
    let ground = read(record)?;
    Ok(ground.size)
}

/// Reads a ground record into new lists.
pub fn read(record: &[u8]) -> Result<Ground, Refusal> {
    let size = judge_frame(record)?;
    let ground = lists(record, size);
    ground.judge_cells()?;
    Ok(ground)
}

/// Reads a ground record into lent lists. Entries past the last one filled stay as they were.
pub fn read_into(
    record: &[u8],
    heights: &mut [i32],
    marks: &mut [u8],
    water: &mut [u16],
) -> Result<Size, Refusal> {
    let size = judge_frame(record)?;
    let cells = size.cells();
    if heights.len() < cells || marks.len() < cells || water.len() < cells {
        return Err(Refusal::Room);
    }
    let ground = lists(record, size);
    ground.judge_cells()?;
    heights[..cells].copy_from_slice(&ground.heights);
    marks[..cells].copy_from_slice(&ground.marks);
    water[..cells].copy_from_slice(&ground.water);
    Ok(size)
}

/// Writes a ground as a record. The answer is the length written.
pub fn write(ground: &Ground, record: &mut [u8]) -> Result<usize, Refusal> {
    ground.judge_lists()?;
    let length = length(ground.size);
    if record.len() < length {
        return Err(Refusal::Room);
    }
    ground.judge_cells()?;
    record[..length].copy_from_slice(&bytes(ground));
    Ok(length)
}

/// A ground's bytes, without judging its cells.
pub fn bytes(ground: &Ground) -> Vec<u8> {
    let mut bytes = Vec::with_capacity(length(ground.size));
    for height in &ground.heights {
        bytes.extend(height.to_le_bytes());
    }
    bytes.extend(&ground.marks);
    for water in &ground.water {
        bytes.extend(water.to_le_bytes());
    }
    bytes.extend((ground.size.width as u16).to_le_bytes());
    bytes.extend((ground.size.height as u16).to_le_bytes());
    for distance in distances(ground.size) {
        bytes.extend(distance.to_le_bytes());
    }
    bytes
}

/// Refusals 2 (under 16 bytes), 1, 2 (not 7N + 16) and 7, in this order.
pub fn judge_frame(record: &[u8]) -> Result<Size, Refusal> {
    if record.len() < TRAILER {
        return Err(Refusal::Length);
    }
    let size = size_named(record);
    size.judge()?;
    if record.len() != length(size) {
        return Err(Refusal::Length);
    }
    if distances_named(record) != distances(size) {
        return Err(Refusal::Distance);
    }
    Ok(size)
}

/// The size that the trailer names, for a record of 16 bytes or more.
pub fn size_named(record: &[u8]) -> Size {
    let trailer = &record[record.len() - TRAILER..];
    let number = |at: usize| usize::from(u16::from_le_bytes([trailer[at], trailer[at + 1]]));
    Size {
        width: number(0),
        height: number(2),
    }
}

/// The distances that the trailer names, for a record of 16 bytes or more.
pub fn distances_named(record: &[u8]) -> [u32; 3] {
    let trailer = &record[record.len() - TRAILER..];
    let number = |at: usize| u32::from_le_bytes(trailer[at..at + 4].try_into().unwrap());
    [number(4), number(8), number(12)]
}

/// The three lists of a record whose frame has been judged.
pub fn lists(record: &[u8], size: Size) -> Ground {
    let cells = size.cells();
    let (heights, rest) = record.split_at(4 * cells);
    let (marks, rest) = rest.split_at(cells);
    let water = &rest[..2 * cells];
    Ground {
        size,
        heights: heights
            .chunks_exact(4)
            .map(|height| i32::from_le_bytes(height.try_into().unwrap()))
            .collect(),
        marks: marks.to_vec(),
        water: water
            .chunks_exact(2)
            .map(|water| u16::from_le_bytes(water.try_into().unwrap()))
            .collect(),
    }
}
