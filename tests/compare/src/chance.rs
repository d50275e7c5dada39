//! Chance that repeats: all of a case follows from the run's seed and the case's index.

/// A stream of numbers (splitmix64).
#[derive(Clone, Debug)]
pub struct Chance(u64);

impl Chance {
    /// The stream of one case. Each case has its own, so one case can be made without the others.
    pub fn of_case(seed: u64, index: u64) -> Chance {
        let mut chance = Chance(seed);
        let start = chance.number() ^ index.wrapping_mul(0xD1B5_4A32_D192_ED03);
        Chance(start)
    }

    /// Any number of 64 bits.
    pub fn number(&mut self) -> u64 {
        self.0 = self.0.wrapping_add(0x9E37_79B9_7F4A_7C15);
        let mut mixed = self.0;
        mixed = (mixed ^ (mixed >> 30)).wrapping_mul(0xBF58_476D_1CE4_E5B9);
        mixed = (mixed ^ (mixed >> 27)).wrapping_mul(0x94D0_49BB_1331_11EB);
        mixed ^ (mixed >> 31)
    }

    /// A number from 0, below the limit.
    pub fn below(&mut self, limit: usize) -> usize {
        (self.number() % limit as u64) as usize
    }

    /// A number between the two, ends included.
    pub fn between(&mut self, least: i32, greatest: i32) -> i32 {
        let span = i64::from(greatest) - i64::from(least) + 1;
        let step = (self.number() % span as u64) as i64;
        (i64::from(least) + step) as i32
    }

    /// True once in so many times.
    pub fn one_in(&mut self, times: usize) -> bool {
        self.below(times) == 0
    }

    /// One of the things on the list.
    pub fn pick<T: Copy>(&mut self, list: &[T]) -> T {
        list[self.below(list.len())]
    }
}
