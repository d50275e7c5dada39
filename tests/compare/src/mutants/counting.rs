//! Mutants that judge the count of neighbours wrongly: another count accepted or refused, 11 at another
//! place among the refusals, or 11 answered wrongly.

use second::refusal::Refusal;

use super::asking::{clear, clear_first, judged_after, judged_after_16_bytes, judged_last, right};
use super::{AskedCall, Mutant};
use crate::asked::asked;

pub const MUTANTS: &[Mutant<AskedCall>] = mutants![
    // other counts
    "11: every count taken for 4" => taken_for!(neighbours: |_| 4),
    "11: 4 refused" => taken_for!(neighbours: |count| if count == 4 { 5 } else { count }),
    "11: 8 refused" => taken_for!(neighbours: |count| if count == 8 { 9 } else { count }),
    "11: 0 taken for 4" => taken_for!(neighbours: |count| if count == 0 { 4 } else { count }),
    "11: 1 to 3 taken for 4" =>
        taken_for!(neighbours: |count| if (1..=3).contains(&count) { 4 } else { count }),
    "11: 5 to 7 taken for 8" =>
        taken_for!(neighbours: |count| if (5..=7).contains(&count) { 8 } else { count }),
    "11: 9 taken for 8" => taken_for!(neighbours: |count| if count == 9 { 8 } else { count }),
    "11: more than 9 taken for 8" =>
        taken_for!(neighbours: |count| if count > 9 { 8 } else { count }),
    "11: 12 taken for 8" => taken_for!(neighbours: |count| if count == 12 { 8 } else { count }),
    "11: only the low 16 bits judged" => taken_for!(neighbours: |count| count % 65_536),
    "11: only the low 8 bits judged" => taken_for!(neighbours: |count| count % 256),
    "11: only the low 31 bits judged" => taken_for!(neighbours: |count| count % (1 << 31)),
    "11: the sign is passed over" => taken_for!(neighbours: |count| (count as i32).unsigned_abs()),
    "11: judged with its bytes the other way round" => taken_for!(neighbours: |count| match count {
        4 | 8 => count,
        _ => count.swap_bytes(),
    }),
    // the order
    "11 judged after 12" => |asked, ground, room| match asked.manner {
        1 | 2 => right(asked, ground, room),
        _ => Refusal::Manner.answer(),
    },
    "11 judged after 2, under 16 bytes only" => judged_after_16_bytes::<11>,
    "11 judged after 1 only" => judged_after::<11, 1>,
    "11 judged after 2 only" => judged_after::<11, 2>,
    "11 judged after 3 only" => judged_after::<11, 3>,
    "11 judged after 4 only" => judged_after::<11, 4>,
    "11 judged after 5 only" => judged_after::<11, 5>,
    "11 judged after 6 only" => judged_after::<11, 6>,
    "11 judged after 7 only" => judged_after::<11, 7>,
    "11 judged after all that judge the ground" => judged_last::<11>,
    // the answer
    "11: answered with 12" => refused!(11, |_, _, _| Refusal::Manner.answer()),
    "11: answered with 2" => refused!(11, |_, _, _| Refusal::Length.answer()),
    "11: the count is the place" =>
        refused!(11, |asked, _, _| 11 * 65_536 + asked.neighbours % 65_536),
    "11: the place is 1" => refused!(11, |_, _, _| 11 * 65_536 + 1),
    "11: the room is cleared" => refused!(11, |_, _, room| clear(room, 11)),
    "11: the first byte is cleared" => refused!(11, |_, _, room| clear_first(room, 11)),
    "11: the network of 4 is written" => refused!(11, |_, ground, room| {
        right(asked(4, 1), ground, room);
        11 * 65_536
    }),
];
