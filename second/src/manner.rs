//! The manner in which water runs: carved, as in document 01, or as a sheet (W-205).

use crate::refusal::Refusal;

/// The manner that a caller asks for.
#[derive(Clone, Copy, Debug, PartialEq, Eq)]
pub enum Manner {
    /// Document 01's: a trench is carved through each pass.
    Carve,
    /// W-205's: level water and level ground drain by the fewest steps.
    Sheet,
}

impl Manner {
    /// All that can be asked for.
    pub const BOTH: [Manner; 2] = [Manner::Carve, Manner::Sheet];

    /// Refusal 12: any manner other than 1 or 2. All its 32 bits count.
    pub fn asked_for(manner: u32) -> Result<Manner, Refusal> {
        match manner {
            1 => Ok(Manner::Carve),
            2 => Ok(Manner::Sheet),
            _ => Err(Refusal::Manner),
        }
    }
}
