//! A difference between the library and the second program, and how it is printed.

use std::fmt;

use crate::asked::Asked;
use crate::calls::Call;

/// Everything needed to find the case again and to see what went wrong.
pub struct Difference {
    pub call: &'static Call,
    pub family: &'static str,
    pub seed: u64,
    pub index: u64,
    pub asked: Asked,
    pub room: usize,
    pub answer: u32,
    pub wanted: u32,
    pub what: String,
}

impl fmt::Display for Difference {
    fn fmt(&self, to: &mut fmt::Formatter) -> fmt::Result {
        let Difference {
            call: Call { name, meaning, .. },
            family,
            seed,
            index,
            asked,
            room,
            ..
        } = self;
        writeln!(
            to,
            "difference: {name}, seed {seed}, family {family}, index {index}, \
             {asked}, room {room}"
        )?;
        writeln!(to, "  library:        {}", in_words(self.answer, meaning))?;
        writeln!(to, "  second program: {}", in_words(self.wanted, meaning))?;
        write!(to, "  {}", self.what)
    }
}

/// An answer in words, with those that follow an accepted one.
fn in_words(answer: u32, accepted: &str) -> String {
    match answer < 65_536 {
        true => format!("answer {answer}, {accepted}"),
        false => {
            let (number, place) = (answer / 65_536, answer % 65_536);
            format!("answer {answer}, refused {number} {place}")
        }
    }
}

/// The first byte of two equally long lists that differs, and where it stands.
/// `before` watched bytes come first, then a room of `room` bytes. `part` names what a byte of the room
/// belongs to.
pub fn first_differing_byte(
    found: &[u8],
    wanted: &[u8],
    before: usize,
    room: usize,
    part: impl Fn(usize) -> String,
) -> Option<String> {
    let at = found.iter().zip(wanted).position(|(one, two)| one != two)?;
    let place = match at.checked_sub(before) {
        None => format!("watched byte {} before the room", before - at),
        Some(byte) if byte >= room => format!("watched byte {} after the room", byte - room),
        Some(byte) => format!("byte {byte} of the room, {}", part(byte)),
    };
    let (one, two) = (found[at], wanted[at]);
    Some(format!(
        "first differing byte: {place}: {one:02X} and not {two:02X}"
    ))
}

#[cfg(test)]
mod tests {
    use super::*;

    #[test]
    fn the_first_differing_byte_is_placed() {
        let wanted = [0; 10];
        let mut found = wanted;
        let place = |found: &[u8]| first_differing_byte(found, &wanted, 3, 4, |_| String::new());
        assert_eq!(place(&found), None);
        found[9] = 1;
        assert!(place(&found).unwrap().contains("watched byte 2 after"));
        found[3] = 1;
        assert!(place(&found).unwrap().contains("byte 0 of the room"));
        found[0] = 1;
        assert!(place(&found).unwrap().contains("watched byte 3 before"));
    }
}
