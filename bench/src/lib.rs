//! The benchmark's parts: the plain versions, the tiles of both tables, and the clock. The programs put them together.

pub mod adversarial;
pub mod plain;
pub mod plain_lakes;
pub mod race;
pub mod runs;
pub mod slow_diagonals;
pub mod slow_lakes;
pub mod slow_reliefs;
pub mod slow_sheets;
pub mod tables;
pub mod tiles;
