//! Mutants that judge the manner wrongly: another manner accepted or refused, 12 at another place among
//! the refusals, or 12 answered wrongly.

use second::refusal::Refusal;

use super::asking::{clear, clear_first, judged_after, judged_after_16_bytes, judged_last, right};
use super::{AskedCall, Mutant};
use crate::asked::{asked, CARVE, SHEET};

pub const MUTANTS: &[Mutant<AskedCall>] = mutants![
    // other manners
    "2 answered with the network of 1" =>
        taken_for!(manner: |manner| if manner == SHEET { CARVE } else { manner }),
    "1 answered with the network of 2" =>
        taken_for!(manner: |manner| if manner == CARVE { SHEET } else { manner }),
    "1 and 2 exchanged" => taken_for!(manner: |manner| match manner {
        CARVE => SHEET,
        SHEET => CARVE,
        _ => manner,
    }),
    "count and manner exchanged" =>
        |of, ground, room| right(asked(of.manner, of.neighbours), ground, room),
    "12: every manner taken for 1" => taken_for!(manner: |_| CARVE),
    "12: every manner but 2 taken for 1" =>
        taken_for!(manner: |manner| if manner == SHEET { SHEET } else { CARVE }),
    "12: every manner but 1 taken for 2" =>
        taken_for!(manner: |manner| if manner == CARVE { CARVE } else { SHEET }),
    "12: 1 refused" => taken_for!(manner: |manner| if manner == CARVE { 0 } else { manner }),
    "12: 2 refused" => taken_for!(manner: |manner| if manner == SHEET { 3 } else { manner }),
    "12: 0 taken for 1" => taken_for!(manner: |manner| if manner == 0 { CARVE } else { manner }),
    "12: 0 and 1 for carving and sheets" => taken_for!(manner: |manner| manner.wrapping_add(1)),
    "12: 3 taken for 2" => taken_for!(manner: |manner| if manner == 3 { SHEET } else { manner }),
    "12: more than 3 taken for 2" =>
        taken_for!(manner: |manner| if manner > 3 { SHEET } else { manner }),
    "12: only the low 16 bits judged" => taken_for!(manner: |manner| manner % 65_536),
    "12: only the low 8 bits judged" => taken_for!(manner: |manner| manner % 256),
    "12: only the low 2 bits judged" => taken_for!(manner: |manner| manner % 4),
    "12: only the low 31 bits judged" => taken_for!(manner: |manner| manner % (1 << 31)),
    "12: the sign is passed over" =>
        taken_for!(manner: |manner| (manner as i32).unsigned_abs()),
    "12: judged with its bytes the other way round" => taken_for!(manner: |manner| match manner {
        CARVE | SHEET => manner,
        _ => manner.swap_bytes(),
    }),
    // the order; 12 before 11 is among the mutants of the count
    "12 judged after 2, under 16 bytes only" => judged_after_16_bytes::<12>,
    "12 judged after 1 only" => judged_after::<12, 1>,
    "12 judged after 2 only" => judged_after::<12, 2>,
    "12 judged after 3 only" => judged_after::<12, 3>,
    "12 judged after 4 only" => judged_after::<12, 4>,
    "12 judged after 5 only" => judged_after::<12, 5>,
    "12 judged after 6 only" => judged_after::<12, 6>,
    "12 judged after 7 only" => judged_after::<12, 7>,
    "12 judged after all that judge the ground" => judged_last::<12>,
    // the answer
    "12: answered with 11" => refused!(12, |_, _, _| Refusal::Neighbours.answer()),
    "12: answered with 2" => refused!(12, |_, _, _| Refusal::Length.answer()),
    "12: the manner is the place" =>
        refused!(12, |asked, _, _| 12 * 65_536 + asked.manner % 65_536),
    "12: the place is 1" => refused!(12, |_, _, _| 12 * 65_536 + 1),
    "12: the room is cleared" => refused!(12, |_, _, room| clear(room, 12)),
    "12: the first byte is cleared" => refused!(12, |_, _, room| clear_first(room, 12)),
    "12: the carved network is written" => refused!(12, |of, ground, room| {
        right(asked(of.neighbours, CARVE), ground, room);
        12 * 65_536
    }),
];
