//! The C calls for a network as Rust functions: ground record in, network record out, one number back.

use crate::ground::Ground;
use crate::manner::Manner;
use crate::neighbours::Neighbours;
use crate::network::network_by;
use crate::network_record;
use crate::record;
use crate::refusal::Refusal;

/// Document 01's call: the refusal number times 65,536 plus the place, or the length written.
pub fn call(ground: &[u8], network: &mut [u8]) -> u32 {
    let asked = (Neighbours::Four, Manner::Carve);
    answer(write_network(asked, ground, network))
}

/// The call of W-203 and W-205, with the count of neighbours and the manner that are asked for.
/// The count is judged first, then the manner, then all else.
pub fn network_by_call(neighbours: u32, manner: u32, ground: &[u8], network: &mut [u8]) -> u32 {
    let asked = asked_for(neighbours, manner);
    answer(asked.and_then(|asked| write_network(asked, ground, network)))
}

/// Refusals 11 and 12, in this order.
pub fn asked_for(neighbours: u32, manner: u32) -> Result<(Neighbours, Manner), Refusal> {
    let neighbours = Neighbours::asked_for(neighbours)?;
    let manner = Manner::asked_for(manner)?;
    Ok((neighbours, manner))
}

fn answer(written: Result<usize, Refusal>) -> u32 {
    match written {
        Ok(length) => length as u32,
        Err(refusal) => refusal.answer(),
    }
}

/// Writes only when all has been judged.
fn write_network(
    (neighbours, manner): (Neighbours, Manner),
    ground: &[u8],
    room: &mut [u8],
) -> Result<usize, Refusal> {
    let ground = judge(ground, room.len())?;
    let network = network_by(neighbours, manner, &ground);
    let bytes = network_record::bytes(&network, ground.size);
    room[..bytes.len()].copy_from_slice(&bytes);
    Ok(bytes.len())
}

/// Judges a ground record and the length of a room for its network, in the order of the table.
pub fn judge(record: &[u8], room: usize) -> Result<Ground, Refusal> {
    let size = record::judge_frame(record)?;
    if room < network_record::length(size) {
        return Err(Refusal::Room);
    }
    let ground = record::lists(record, size);
    ground.judge_cells()?;
    Ok(ground)
}
