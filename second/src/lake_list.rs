//! The C call for lakes as a Rust function: ground record in, a list of lakes out, one number back.

use crate::lakes::{lakes, listed, Lake};
use crate::record;
use crate::refusal::Refusal;

/// The bytes of one lake in the list.
pub const LAKE: usize = 16;

/// The refusal number times 65,536 plus the place, or the number of lakes.
pub fn lakes_call(ground: &[u8], room: &mut [u8]) -> u32 {
    match write_lakes(ground, room) {
        Ok(count) => count as u32,
        Err(refusal) => refusal.answer(),
    }
}

/// The ground is judged first, then the depth of its lakes, then the room.
fn write_lakes(ground: &[u8], room: &mut [u8]) -> Result<usize, Refusal> {
    let ground = record::read(ground)?;
    let outermost = lakes(&ground)?;
    let list = listed(&outermost);
    if room.len() / LAKE < list.len() {
        return Err(Refusal::Room);
    }
    for (lake, entry) in list.iter().zip(room.chunks_exact_mut(LAKE)) {
        entry.copy_from_slice(&bytes(lake));
    }
    Ok(list.len())
}

/// One lake, little-endian: level (4, signed), number of cells (2), least cell (2), volume (8).
pub fn bytes(lake: &Lake) -> [u8; LAKE] {
    let mut bytes = [0; LAKE];
    bytes[0..4].copy_from_slice(&lake.level.to_le_bytes());
    bytes[4..6].copy_from_slice(&(lake.cells.len() as u16).to_le_bytes());
    bytes[6..8].copy_from_slice(&lake.least().0.to_le_bytes());
    bytes[8..16].copy_from_slice(&lake.volume.to_le_bytes());
    bytes
}
