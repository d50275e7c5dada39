//! The clock: a call of ours and its plain version in turn on each tile, in one process. Each tile's time is the least of several runs, and
//! all other tiles are run between two runs of the same one: a busy machine spoils some runs, and no processor learns a tile by heart.

use std::time::{Duration, Instant};

use compare::library::under_test;

use crate::plain::Plain;
use crate::plain_lakes::PlainLakes;
use crate::tiles::Tile;

/// Room for every network record, and for every list of lakes.
const ROOM: usize = 65_536;

/// The least time of each side on one tile. The other side is the plain version, or another call of ours.
#[derive(Clone, Copy)]
pub struct Best {
    pub ours: Duration,
    pub other: Duration,
}

impl Best {
    /// Before the first run.
    pub const NONE: Best = Best {
        ours: Duration::MAX,
        other: Duration::MAX,
    };
}

/// The times of both sides, summed over tiles.
#[derive(Clone, Copy, Default)]
pub struct Times {
    pub tiles: u32,
    pub ours: Duration,
    pub other: Duration,
}

impl FromIterator<Best> for Times {
    fn from_iter<Tiles: IntoIterator<Item = Best>>(tiles: Tiles) -> Times {
        let mut all = Times::default();
        for Best { ours, other } in tiles {
            let tiles = 1;
            all.add(&Times { tiles, ours, other });
        }
        all
    }
}

impl Times {
    pub fn add(&mut self, more: &Times) {
        self.tiles += more.tiles;
        self.ours += more.ours;
        self.other += more.other;
    }

    /// Ours divided by the other.
    pub fn ratio(&self) -> f64 {
        self.ours.as_secs_f64() / self.other.as_secs_f64()
    }

    /// Our mean time on a tile, and the other side's, in microseconds.
    pub fn means(&self) -> (f64, f64) {
        let mean = |time: Duration| time.as_secs_f64() * 1e6 / f64::from(self.tiles.max(1));
        (mean(self.ours), mean(self.other))
    }
}

/// A call of either side. The plain version keeps its lists.
type Call = Box<dyn FnMut(&[u8], &mut [u8]) -> u32>;

/// Both sides, each with a room of its own.
pub struct Race {
    ours: Call,
    plain: Call,
    our_room: Vec<u8>,
    plain_room: Vec<u8>,
    rounds: usize,
}

impl Race {
    /// The network of a tile.
    pub fn network() -> Race {
        let mut plain = Plain::default();
        let plain = move |ground: &[u8], room: &mut [u8]| plain.call(ground, room);
        Race::of(Box::new(under_test().askvimur_network), Box::new(plain))
    }

    /// The network of a tile over these neighbours and in this manner.
    pub fn network_by(neighbours: u32, manner: u32) -> Race {
        let ours = under_test().askvimur_network_by;
        let ours = move |ground: &[u8], room: &mut [u8]| ours(neighbours, manner, ground, room);
        let mut plain = Plain::default();
        let plain =
            move |ground: &[u8], room: &mut [u8]| plain.call_by(neighbours, manner, ground, room);
        Race::of(Box::new(ours), Box::new(plain))
    }

    /// The lakes of a tile.
    pub fn lakes() -> Race {
        let mut plain = PlainLakes::default();
        let plain = move |ground: &[u8], room: &mut [u8]| plain.call(ground, room);
        Race::of(Box::new(under_test().askvimur_lakes), Box::new(plain))
    }

    fn of(ours: Call, plain: Call) -> Race {
        Race {
            ours,
            plain,
            our_room: vec![0; ROOM],
            plain_room: vec![0; ROOM],
            rounds: 0,
        }
    }

    /// One run of both sides on every tile. Who goes first changes from tile to tile, and on each tile from round to round.
    pub fn round(&mut self, tiles: &[Tile], best: &mut [Best]) {
        self.rounds += 1;
        for (index, (tile, best)) in tiles.iter().zip(best).enumerate() {
            let (ours, plain) = match (index + self.rounds) % 2 {
                0 => {
                    let ours = timed(&mut self.ours, &tile.record, &mut self.our_room);
                    (
                        ours,
                        timed(&mut self.plain, &tile.record, &mut self.plain_room),
                    )
                }
                _ => {
                    let plain = timed(&mut self.plain, &tile.record, &mut self.plain_room);
                    (
                        timed(&mut self.ours, &tile.record, &mut self.our_room),
                        plain,
                    )
                }
            };
            assert!(
                ours.answer == plain.answer && self.our_room == self.plain_room,
                "the two sides differ on tile {index} of the round"
            );
            best.ours = best.ours.min(ours.time);
            best.other = best.other.min(plain.time);
        }
    }
}

/// What one run of one side came to.
struct Run {
    answer: u32,
    time: Duration,
}

fn timed(call: &mut Call, record: &[u8], room: &mut [u8]) -> Run {
    room.fill(0);
    let start = Instant::now();
    let answer = call(record, room);
    let time = start.elapsed();
    Run { answer, time }
}
