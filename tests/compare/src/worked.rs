//! The worked examples of the calls, from `tests/vectors`: each line says what a call is handed, what it
//! answers and what it writes. Nothing of the second program is asked.

use second::vectors::{read_all, Vector};

use crate::asked::asked;
use crate::calls::{Call, Made};

/// How many examples of a call there are.
pub fn count(call: &Call) -> usize {
    read_all(call.examples).len()
}

/// The lines, counted from 1, that a library does not do as they say.
pub fn wrong_lines(call: &Call, library: &Made) -> Vec<usize> {
    let made = |line: &Vector, room: &mut [u8]| {
        library(asked(line.neighbours, line.manner), &line.input, room)
    };
    let examples = read_all(call.examples);
    let wrong = |(_, example): &(usize, &Vector)| !example.holds(made);
    let lines = examples.iter().enumerate().filter(wrong);
    lines.map(|(at, _)| at + 1).collect()
}

#[cfg(test)]
mod tests {
    use super::*;
    use crate::asked::CARVE;
    use crate::calls::{ALL, LAKES, NETWORK_BY};
    use crate::library::SECOND;

    #[test]
    fn the_second_program_does_as_they_say() {
        assert_eq!(ALL.map(count), [0, 240, 240]);
        for call in ALL {
            assert_eq!(wrong_lines(call, &call.of(&SECOND)), [0; 0]);
        }
    }

    #[test]
    fn what_finds_no_lake_does_not() {
        assert!(wrong_lines(&LAKES, &|_, _, _| 0).len() > 150);
    }

    #[test]
    fn what_does_not_look_at_the_neighbours_does_not() {
        let always_4: &Made = &|_, ground, room| second::call(ground, room);
        assert!(wrong_lines(&NETWORK_BY, always_4).len() > 20);
    }

    #[test]
    fn what_does_not_look_at_the_manner_does_not() {
        let always_carved: &Made =
            &|asked, ground, room| second::network_by_call(asked.neighbours, CARVE, ground, room);
        assert!(wrong_lines(&NETWORK_BY, always_carved).len() > 20);
    }
}
