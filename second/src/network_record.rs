//! Network records: six sections, then a trailer of 28 bytes. Little-endian, no gaps.

use crate::ground::Size;
use crate::network::Network;

/// The length of a network record of this size: 15N + 28.
pub fn length(size: Size) -> usize {
    15 * size.cells() + 28
}

/// A network's bytes.
pub fn bytes(network: &Network, size: Size) -> Vec<u8> {
    let mut bytes = Vec::with_capacity(length(size));
    for receiver in &network.receivers {
        bytes.extend(receiver.0.to_le_bytes());
    }
    for basin in &network.basins {
        bytes.extend(basin.0.to_le_bytes());
    }
    for cell in &network.order {
        bytes.extend(cell.0.to_le_bytes());
    }
    for level in &network.levels {
        bytes.extend(level.to_le_bytes());
    }
    for drainage in &network.drainage {
        bytes.extend(drainage.to_le_bytes());
    }
    bytes.extend(&network.wet);
    bytes.extend(trailer(size));
    bytes
}

/// Width, height and the six distances back to the sections.
fn trailer(size: Size) -> Vec<u8> {
    let mut bytes = Vec::new();
    bytes.extend((size.width as u16).to_le_bytes());
    bytes.extend((size.height as u16).to_le_bytes());
    for times in [15, 13, 11, 9, 5, 1] {
        let distance = times * size.cells() as u32;
        bytes.extend(distance.to_le_bytes());
    }
    bytes
}
