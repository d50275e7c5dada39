//! A run: one call on the mix and on adversarial tiles, and the least time of every tile.

use crate::adversarial::{self, Family};
use crate::race::{Best, Race};
use crate::tiles::Tile;

/// One call, its adversarial tiles, and the least time of every tile.
pub struct Run {
    race: Race,
    pub mix_best: Vec<Best>,
    pub slow: Vec<Slow>,
}

/// The adversarial tiles of some families.
pub struct Slow {
    pub families: &'static [Family],
    pub tiles: Vec<Tile>,
    pub best: Vec<Best>,
}

impl Run {
    pub fn new(race: Race, mix: &[Tile], families: &[&'static [Family]]) -> Run {
        let slow = families.iter().map(|families| {
            let tiles = adversarial::tiles_of(families);
            let best = vec![Best::NONE; tiles.len()];
            Slow {
                families,
                tiles,
                best,
            }
        });
        Run {
            race,
            mix_best: vec![Best::NONE; mix.len()],
            slow: slow.collect(),
        }
    }

    /// Both sides once on some tiles of the mix, those from this number on, and on all adversarial ones.
    pub fn round(&mut self, from: usize, tiles: &[Tile]) {
        let best = &mut self.mix_best[from..from + tiles.len()];
        self.race.round(tiles, best);
        for Slow { tiles, best, .. } in &mut self.slow {
            self.race.round(tiles, best);
        }
    }
}
