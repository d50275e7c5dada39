//! The worked examples in `tests/vectors`, each run by the second program.

use second::vectors::{read_all, Vector};
use second::{lakes_call, network_by_call};

/// A call, with what it takes of a line.
type Call = fn(&Vector, &mut [u8]) -> u32;

const LAKES: Call = |example, room| lakes_call(&example.input, room);
const NETWORK_BY: Call = |example, room| {
    let Vector {
        neighbours,
        manner,
        ref input,
        ..
    } = *example;
    network_by_call(neighbours, manner, input, room)
};

/// Runs so many examples of a call.
fn all_hold(text: &str, lines: usize, call: Call) {
    let all = read_all(text);
    assert_eq!(all.len(), lines);
    for (line, example) in all.iter().enumerate() {
        assert!(example.holds(call), "line {}", line + 1);
    }
}

#[test]
fn every_example_of_lakes_holds() {
    all_hold(include_str!("../../tests/vectors/lakes.txt"), 240, LAKES);
}

#[test]
fn every_example_of_networks_by_count_and_manner_holds() {
    let text = include_str!("../../tests/vectors/network_by.txt");
    all_hold(text, 240, NETWORK_BY);
}

/// Both counts and both manners are accepted and refused, and 11 and 12 come beside each other.
#[test]
fn examples_of_networks_are_of_every_kind() {
    let all = read_all(include_str!("../../tests/vectors/network_by.txt"));
    let times = |is: fn(&Vector) -> bool| all.iter().filter(|example| is(example)).count();
    for (neighbours, manner) in [(4, 1), (4, 2), (8, 1), (8, 2)] {
        let of_kind = all.iter().filter(|example| {
            (example.neighbours, example.manner) == (neighbours, manner) && example.answer < 65_536
        });
        assert!(of_kind.count() > 20, "{neighbours} {manner}");
    }
    assert!(times(|example| example.answer == 11 * 65_536) > 10);
    assert!(times(|example| example.answer == 12 * 65_536) > 5);
}

/// Sample F: one lake of one cell, level 4, seven deep.
fn sample_f() -> Vector {
    Vector::read(
        "4 1 0 -5 17 1 fdffffff0400000000010200030002000100\
         0e0000000600000004000000 - 04000000010000000700000000000000",
    )
}

#[test]
fn a_line_is_read_word_by_word() {
    let line = sample_f();
    assert_eq!((line.neighbours, line.manner, line.cell), (4, 1, 0));
    assert_eq!((line.height, line.room, line.answer), (-5, 17, 1));
    assert_eq!((line.input.len(), line.season.len()), (30, 0));
    assert_eq!(line.output[..6], [4, 0, 0, 0, 1, 0]);
    assert!(line.holds(LAKES));
}

/// Another answer, another byte written, and a byte touched that should have stayed.
#[test]
fn a_line_that_is_not_so_does_not_hold() {
    let mut other_answer = sample_f();
    other_answer.answer = 2;
    assert!(!other_answer.holds(LAKES));
    let mut other_byte = sample_f();
    other_byte.output[8] = 8;
    assert!(!other_byte.holds(LAKES));
    assert!(!sample_f().holds(|example, room| {
        room[16] = 0;
        LAKES(example, room)
    }));
}
