//! What both manners have in common, on nothing but what one library returns for a ground in the two of
//! them: basins, levels and wet are the same.

use crate::asked::{Asked, CARVE, SHEET};
use crate::calls::Made;
use crate::cases::Specimen;

/// The sections that stay those of carving, with the first byte of each and the byte past it, in N.
const KEPT: [(&str, usize, usize); 3] = [("basins", 2, 4), ("levels", 6, 10), ("wet", 14, 15)];

/// Judges a sheet's network record beside the carved one, which the library is asked for as well.
/// Any other record is passed over. An error says what is wrong.
pub fn judge(library: &Made, specimen: &Specimen, written: &[u8]) -> Result<(), String> {
    if specimen.asked.manner != SHEET {
        return Ok(());
    }
    let mut carved = vec![0; written.len()];
    let manner = CARVE;
    let asked = Asked {
        manner,
        ..specimen.asked
    };
    let answer = library(asked, &specimen.record, &mut carved);
    if answer as usize != written.len() {
        return Err(format!("carving is answered with {answer}"));
    }
    let cells = written.len().saturating_sub(28) / 15;
    let differs = |&&(_, start, end): &&(&str, usize, usize)| {
        let section = start * cells..end * cells;
        written[section.clone()] != carved[section]
    };
    match KEPT.iter().find(differs) {
        None => Ok(()),
        Some((name, ..)) => Err(format!("{name} are not those of carving")),
    }
}

#[cfg(test)]
mod tests {
    use super::*;
    use crate::asked::RIGHT;
    use crate::calls::NETWORK_BY;
    use crate::families::testing::sample_g;
    use crate::library::SECOND;
    use second::record;

    /// Sample G, which has 6 cells.
    fn specimen(asked: Asked) -> Specimen {
        Specimen {
            family: "sample G",
            seed: 0,
            index: 0,
            record: record::bytes(&sample_g()),
            asked,
            rooms: vec![15 * 6 + 28],
        }
    }

    /// What is judged of the second program, with a byte of what it wrote altered.
    fn judged(asked: Asked, altered: Option<usize>) -> Result<(), String> {
        let specimen = specimen(asked);
        let second = NETWORK_BY.of(&SECOND);
        let mut written = vec![0; specimen.rooms[0]];
        let answer = second(asked, &specimen.record, &mut written);
        assert_eq!(answer as usize, written.len());
        if let Some(byte) = altered {
            written[byte] ^= 1;
        }
        judge(&second, &specimen, &written)
    }

    #[test]
    fn what_the_second_program_writes_is_accepted() {
        for asked in RIGHT {
            assert_eq!(judged(asked, None), Ok(()));
        }
    }

    #[test]
    fn another_basin_level_or_wet_entry_is_refused() {
        for byte in 0..6 * 15 {
            let kept = match byte / 6 {
                2 | 3 => Some("basins"),
                6..=9 => Some("levels"),
                14 => Some("wet"),
                _ => None,
            };
            let [sheet, .., carved] = RIGHT;
            let found = judged(sheet, Some(byte));
            assert_eq!(found.is_err(), kept.is_some(), "byte {byte}");
            assert!(found
                .err()
                .unwrap_or_default()
                .starts_with(kept.unwrap_or_default()));
            assert_eq!(judged(carved, Some(byte)), Ok(()));
        }
    }

    #[test]
    fn a_library_that_refuses_carving_is_refused() {
        let [sheet, ..] = RIGHT;
        let specimen = specimen(sheet);
        let written = vec![0; specimen.rooms[0]];
        assert!(judge(&|_, _, _| 65_536, &specimen, &written).is_err());
    }
}
