//! Every tile of 3 by 3 over three heights with one outlet: 3^9 times 9, 177,147 tiles.

use second::ground::{Ground, Size};
use second::record;

use crate::asked::Asked;
use crate::calls::{Call, Made};
use crate::cases::Specimen;
use crate::comparison::compare;
use crate::difference::Difference;
use crate::tally::Tally;

/// The name under which these tiles are counted.
pub const NAME: &str = "every 3 by 3";

/// How many such tiles there are.
pub const TILES: u64 = 19_683 * 9;

/// How many cases they make for a call.
pub fn cases(call: &Call) -> u64 {
    TILES * call.cases.right.len() as u64
}

/// The tile with this number, 0 to 177,146.
pub fn tile(number: u64) -> Ground {
    let mut heights_left = number / 9;
    let mut heights = Vec::new();
    for _ in 0..9 {
        heights.push((heights_left % 3) as i32);
        heights_left /= 3;
    }
    let mut marks = vec![0; 9];
    marks[(number % 9) as usize] = 1;
    Ground {
        size: Size {
            width: 3,
            height: 3,
        },
        heights,
        marks,
        // A bit for each cell: drainage then names all the cells above.
        water: (0..9).map(|cell| 1 << cell).collect(),
    }
}

/// Room for the network record of such a tile. No list of its lakes is as long.
const ROOM: usize = 15 * 9 + 28;

/// Compares one of these tiles, with all that can be asked for.
pub fn compare_tile(
    call: &'static Call,
    library: &Made,
    number: u64,
    tally: &mut Tally,
) -> Option<Difference> {
    let compare = |&asked: &Asked| {
        let specimen = Specimen {
            family: NAME,
            seed: 0,
            index: number,
            record: record::bytes(&tile(number)),
            asked,
            rooms: vec![ROOM],
        };
        compare(call, library, &specimen, tally)
    };
    call.cases.right.iter().find_map(compare)
}

#[cfg(test)]
mod tests {
    use super::*;
    use std::collections::HashSet;

    #[test]
    fn no_tile_comes_twice() {
        let tiles: HashSet<Vec<u8>> = (0..TILES)
            .map(|number| record::bytes(&tile(number)))
            .collect();
        assert_eq!(tiles.len(), 177_147);
    }
}
