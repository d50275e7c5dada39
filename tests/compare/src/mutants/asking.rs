//! Wrong ways to judge what is asked for. The mutants of the count and of the manner are made of them.

use second::call::judge;
use second::network_by_call;
use second::record::TRAILER;
use second::refusal::Refusal;

use crate::asked::Asked;

/// A library that takes counts or manners for others.
macro_rules! taken_for {
    ($part:ident: $other:expr) => {
        |asked, ground, room| {
            let other: fn(u32) -> u32 = $other;
            let $part = other(asked.$part);
            right($crate::asked::Asked { $part, ..asked }, ground, room)
        }
    };
}

/// A library that answers a refusal with this number in another way, or does more than to answer it.
macro_rules! refused {
    ($number:expr, $refused:expr) => {
        |asked, ground, room| match right(asked, ground, room) {
            answer if answer == $number * 65_536 => {
                let refused: $crate::mutants::AskedCall = $refused;
                refused(asked, ground, room)
            }
            answer => answer,
        }
    };
}

/// The call as it should be.
pub fn right(asked: Asked, ground: &[u8], room: &mut [u8]) -> u32 {
    network_by_call(asked.neighbours, asked.manner, ground, room)
}

/// One other refusal, of the record or the room, comes before this one.
pub fn judged_after<const NUMBER: u32, const OTHER: u32>(
    asked: Asked,
    ground: &[u8],
    room: &mut [u8],
) -> u32 {
    let answer = right(asked, ground, room);
    match judge(ground, room.len()) {
        Err(other) if answer == NUMBER * 65_536 && other.number() == OTHER => other.answer(),
        _ => answer,
    }
}

/// All refusals of the record and of the room come before this one.
pub fn judged_last<const NUMBER: u32>(asked: Asked, ground: &[u8], room: &mut [u8]) -> u32 {
    let answer = right(asked, ground, room);
    match judge(ground, room.len()) {
        Err(other) if answer == NUMBER * 65_536 => other.answer(),
        _ => answer,
    }
}

/// A record under 16 bytes is refused before this one is judged.
pub fn judged_after_16_bytes<const NUMBER: u32>(
    asked: Asked,
    ground: &[u8],
    room: &mut [u8],
) -> u32 {
    match right(asked, ground, room) {
        answer if answer == NUMBER * 65_536 && ground.len() < TRAILER => Refusal::Length.answer(),
        answer => answer,
    }
}

/// Clears all of a room before it refuses.
pub fn clear(room: &mut [u8], number: u32) -> u32 {
    room.fill(0);
    number * 65_536
}

/// Clears the first byte of a room before it refuses.
pub fn clear_first(room: &mut [u8], number: u32) -> u32 {
    let first = room.len().min(1);
    clear(&mut room[..first], number)
}
