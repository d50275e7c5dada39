//! The text that `drain` prints for a ground record.

use std::fmt::Write;

use crate::ground::Ground;
use crate::network::{network, Network};
use crate::record;
use crate::refusal::Refusal;

/// What `drain` prints for this input, refused or not. Each line ends in one newline.
pub fn text(input: &[u8]) -> String {
    match judged(input) {
        Ok(ground) => network_text(&ground, &network(&ground)),
        Err(refusal) => refused(refusal),
    }
}

/// The line of a refusal.
pub fn refused(refusal: Refusal) -> String {
    format!("refused {} {}\n", refusal.number(), refusal.place())
}

/// Too long an input is refused before anything in it is judged.
pub fn judged(input: &[u8]) -> Result<Ground, Refusal> {
    if input.len() > record::LARGEST {
        return Err(Refusal::Length);
    }
    record::read(input)
}

/// The tile's size, a line for each cell, and the sums.
fn network_text(ground: &Ground, network: &Network) -> String {
    let mut text = format!("tile {} {}\n", ground.size.width, ground.size.height);
    let mut outlets_drainage = 0;
    for cell in ground.cells() {
        let at = cell.index();
        let (receiver, level) = (network.receivers[at].0, network.levels[at]);
        let drainage = network.drainage[at];
        writeln!(text, "{at} {receiver} {level} {drainage}").expect("a string takes any text");
        if ground.is_outlet(cell) {
            outlets_drainage += drainage;
        }
    }
    let water: u32 = ground.water.iter().map(|&water| u32::from(water)).sum();
    writeln!(text, "out {outlets_drainage} of {water}").expect("a string takes any text");
    text
}
