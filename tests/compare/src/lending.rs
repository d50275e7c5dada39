//! Lending: a ground record and a room, each amid bytes that are watched.

use std::hint::black_box;

/// At least so many watched bytes stand before and after what is lent.
pub const WATCHED: usize = 64;

/// What is lent to one call, before it and after it.
#[derive(Clone, PartialEq, Eq)]
pub struct Lent {
    /// Watched bytes before the record and before the room. It varies, and so does alignment.
    pub before: usize,
    /// The length of the room.
    pub room: usize,
    pub ground: Vec<u8>,
    /// The room, and the watched bytes around it.
    pub output: Vec<u8>,
}

impl Lent {
    /// The record and a room filled with a pattern that the salt decides.
    pub fn new(record: &[u8], room: usize, salt: u64) -> Lent {
        let before = WATCHED + ((salt + salt / 8) % 8) as usize;
        let mut ground = pattern(before + record.len() + WATCHED, salt);
        ground[before..before + record.len()].copy_from_slice(record);
        Lent {
            before,
            room,
            ground,
            output: pattern(before + room + WATCHED, salt),
        }
    }

    /// Calls the library. What it did to any lent or watched byte is there to be seen after.
    pub fn call(&mut self, library: impl FnOnce(&[u8], &mut [u8]) -> u32) -> u32 {
        let record_end = self.ground.len() - WATCHED;
        let ground = &self.ground[self.before..record_end];
        let room = &mut self.output[self.before..self.before + self.room];
        let answer = library(ground, room);
        // A library in C could write anywhere. Nothing is to be taken for granted about the bytes.
        black_box(&mut self.ground);
        black_box(&mut self.output);
        answer
    }

    /// The first so many bytes of the room.
    pub fn written(&self, length: usize) -> &[u8] {
        &self.output[self.before..self.before + length]
    }
}

/// Bytes of every value, other ones for another salt.
fn pattern(length: usize, salt: u64) -> Vec<u8> {
    (0..length)
        .map(|at| (at as u64 * 167 + salt * 59 + 13) as u8)
        .collect()
}
