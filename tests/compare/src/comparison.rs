//! The comparison of one record: every room, every lent and watched byte, and what was written judged
//! by brute force.

use std::time::Instant;

use second::record;

use crate::calls::{Call, Made};
use crate::cases::Specimen;
use crate::difference::{first_differing_byte, Difference};
use crate::lending::{Lent, WATCHED};
use crate::library::SECOND;
use crate::manner_laws;
use crate::tally::Tally;

/// Tries a record with each of its rooms. The first difference is enough.
pub fn compare(
    call: &'static Call,
    library: &Made,
    specimen: &Specimen,
    tally: &mut Tally,
) -> Option<Difference> {
    for (turn, &room) in specimen.rooms.iter().enumerate() {
        let difference = compare_with_room(call, library, specimen, (turn, room), tally);
        if difference.is_some() {
            tally.differences += 1;
            return difference;
        }
    }
    None
}

/// One call to each side. What the first of a record's calls writes is judged by brute force too.
fn compare_with_room(
    call: &'static Call,
    library: &Made,
    specimen: &Specimen,
    (turn, room): (usize, usize),
    tally: &mut Tally,
) -> Option<Difference> {
    let asked = specimen.asked;
    let lent = Lent::new(&specimen.record, room, specimen.index);
    let (mut found, mut wanted) = (lent.clone(), lent.clone());
    let start = Instant::now();
    let answer = found.call(|ground, room| library(asked, ground, room));
    let between = Instant::now();
    let wanted_answer = wanted.call(|ground, room| (call.make)(&SECOND, asked, ground, room));
    let times = (between - start, between.elapsed());
    tally.count(specimen, room, wanted_answer, times);
    let what = disagreement(call, answer, &found, wanted_answer, &wanted)
        .or_else(|| broken_promise(call, answer, &found, &lent))
        .or_else(|| match turn {
            0 => wrong_by_brute_force(call, library, answer, &found, specimen),
            _ => None,
        })?;
    Some(Difference {
        call,
        family: specimen.family,
        seed: specimen.seed,
        index: specimen.index,
        asked,
        room,
        answer,
        wanted: wanted_answer,
        what,
    })
}

/// Where the two sides differ, in the answer or in any byte.
fn disagreement(
    call: &Call,
    answer: u32,
    found: &Lent,
    wanted: u32,
    expected: &Lent,
) -> Option<String> {
    let part = |byte| match wanted < 65_536 {
        true => (call.part)(byte, wanted),
        false => "refused, so it should be untouched".to_string(),
    };
    let byte = first_differing_byte(
        &found.output,
        &expected.output,
        expected.before,
        expected.room,
        part,
    );
    match (answer == wanted, byte) {
        (true, None) => None,
        (_, Some(byte)) => Some(byte),
        (false, None) => Some("the answers differ, and no byte of the room".to_string()),
    }
}

/// What the documents promise about lent bytes, whatever the second program does.
fn broken_promise(call: &Call, answer: u32, found: &Lent, lent: &Lent) -> Option<String> {
    if let Some(byte) = (0..lent.ground.len()).find(|&at| found.ground[at] != lent.ground[at]) {
        return Some(altered_ground(byte, lent));
    }
    let written = match answer < 65_536 {
        true => (call.written)(answer),
        false => 0,
    };
    let end = (lent.before + written).min(lent.output.len());
    match found.output[..lent.before] != lent.output[..lent.before]
        || found.output[end..] != lent.output[end..]
    {
        true => Some("a byte outside of what was written is altered".to_string()),
        false => None,
    }
}

/// Which byte of the ground record, or around it, has been altered.
fn altered_ground(byte: usize, lent: &Lent) -> String {
    let end = lent.ground.len() - WATCHED;
    let place = match byte.checked_sub(lent.before) {
        None => format!("watched byte {} before", lent.before - byte),
        Some(_) if byte >= end => format!("watched byte {} after", byte - end),
        Some(inside) => format!("byte {inside} of"),
    };
    format!("{place} the ground record is altered")
}

/// What is wrong with what an accepted call has written, by itself and beside the other manner's.
fn wrong_by_brute_force(
    call: &Call,
    library: &Made,
    answer: u32,
    found: &Lent,
    specimen: &Specimen,
) -> Option<String> {
    if answer >= 65_536 {
        return None;
    }
    match (specimen.asked.judged(), record::read(&specimen.record)) {
        (Ok((neighbours, _)), Ok(ground)) => {
            let written = found.written((call.written)(answer));
            let judged = (call.judge)(neighbours, &ground, written)
                .and_then(|()| manner_laws::judge(library, specimen, written));
            judged.err().map(|wrong| format!("by brute force: {wrong}"))
        }
        _ => Some("what should be refused is accepted".to_string()),
    }
}

#[cfg(test)]
mod tests {
    use super::*;
    use crate::calls::{LAKES, NETWORK};

    fn lent() -> Lent {
        Lent::new(&[1, 2, 3], 50, 5)
    }

    #[test]
    fn untouched_bytes_are_no_difference() {
        assert_eq!(broken_promise(&NETWORK, 65_536, &lent(), &lent()), None);
        assert_eq!(
            disagreement(&NETWORK, 65_536, &lent(), 65_536, &lent()),
            None
        );
    }

    #[test]
    fn any_altered_byte_of_the_ground_or_around_it_is_seen() {
        for byte in 0..lent().ground.len() {
            let mut found = lent();
            found.ground[byte] ^= 1;
            assert!(broken_promise(&NETWORK, 43, &found, &lent()).is_some());
        }
    }

    #[test]
    fn any_altered_byte_after_a_refusal_is_seen() {
        for byte in 0..lent().output.len() {
            let mut found = lent();
            found.output[byte] ^= 1;
            assert!(broken_promise(&NETWORK, 65_536, &found, &lent()).is_some());
            assert!(disagreement(&NETWORK, 65_536, &found, 65_536, &lent()).is_some());
        }
    }

    #[test]
    fn bytes_around_and_past_what_is_written_are_watched() {
        let before = lent().before;
        for byte in 0..lent().output.len() {
            let mut found = lent();
            found.output[byte] ^= 1;
            let in_record = (before..before + 43).contains(&byte);
            assert_eq!(
                broken_promise(&NETWORK, 43, &found, &lent()).is_none(),
                in_record
            );
            let in_list = (before..before + 3 * 16).contains(&byte);
            assert_eq!(
                broken_promise(&LAKES, 3, &found, &lent()).is_none(),
                in_list
            );
        }
        assert_eq!(lent().output.len(), before + 50 + WATCHED);
    }
}
