//! Mutants that write or answer wrongly: bytes touched that should not be, or a record or an answer
//! put together wrong.

use super::{right, Known, Mutant, NetworkCall};

/// A library that alters an accepted record after it has been written.
macro_rules! patched {
    ($patch:expr) => {
        |known, ground, network| patched(known, ground, network, $patch)
    };
}

pub const MUTANTS: &[Mutant<NetworkCall>] = mutants![
    "writes before it judges" => |known, ground, network| {
        if let Some(first) = network.first_mut() {
            *first = 0;
        }
        right(known, ground, network)
    },
    "a byte past the record cleared" => patched!(|room, length, _| {
        if let Some(past) = room.get_mut(length) {
            *past = 0;
        }
    }),
    "the last byte not written" =>
        patched!(|room, length, before| room[length - 1] = before[length - 1]),
    "a distance off by one" => patched!(|room, length, _| room[length - 4] ^= 1),
    "width and height exchanged" =>
        patched!(|room, length, _| room[length - 28..length - 24].rotate_left(2)),
    "the largest order ends too soon" => patched!(|room, length, _| {
        if length == 61_468 {
            room[24_574..24_576].fill(0);
        }
    }),
    "sample D's network for every 3 by 3 tile" => patched!(|room, length, _| {
        if room[length - 28..length - 24] == [3, 0, 3, 0] {
            room[..length].copy_from_slice(&sample_d());
        }
    }),
    "the answer is the length of the room" => |known, ground, network| {
        match right(known, ground, network) {
            answer if answer < 65_536 => network.len() as u32,
            answer => answer,
        }
    },
    "number and place exchanged in the answer" => |known, ground, network| {
        match right(known, ground, network) {
            answer if answer < 65_536 => answer,
            answer => answer.rotate_left(16),
        }
    },
];

/// The right answer, with an accepted record altered after it has been written. The patch is given
/// the room, the length written and the room as it was before.
fn patched(
    known: Known,
    ground: &[u8],
    network: &mut [u8],
    patch: fn(&mut [u8], usize, &[u8]),
) -> u32 {
    let before = network.to_vec();
    let answer = right(known, ground, network);
    if answer < 65_536 {
        patch(network, answer as usize, &before);
    }
    answer
}

/// The network record of sample D.
fn sample_d() -> Vec<u8> {
    let ground = second::ground::Ground {
        size: second::ground::Size {
            width: 3,
            height: 3,
        },
        heights: vec![0; 9],
        marks: vec![1, 0, 0, 0, 0, 0, 0, 0, 1],
        water: vec![1; 9],
    };
    let mut network = vec![0; second::network_record::length(ground.size)];
    second::call(&second::record::bytes(&ground), &mut network);
    network
}
