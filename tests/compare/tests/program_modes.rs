//! The modes that run a program, tried on programs that are right and on some that are wrong.

use std::path::Path;

use compare::follow_run::FOLLOW;
use compare::program_run::{compare_program, Task};
use compare::record_runs::{DRAIN, LAKES};

const STAND_IN_DRAIN: &str = env!("CARGO_BIN_EXE_stand-in-drain");
const STAND_IN_FOLLOW: &str = env!("CARGO_BIN_EXE_stand-in-follow");
const STAND_IN_LAKES: &str = env!("CARGO_BIN_EXE_stand-in-lakes");

/// What differs on so many inputs and on the endless one.
fn differences(program: &str, task: &Task, inputs: u64) -> Vec<String> {
    compare_program(Path::new(program), task, 1, inputs, |_, _, _| ()).unwrap()
}

#[test]
fn the_second_programs_own_programs_pass() {
    assert_eq!(differences(STAND_IN_DRAIN, &DRAIN, 500), [""; 0]);
    assert_eq!(differences(STAND_IN_FOLLOW, &FOLLOW, 500), [""; 0]);
    assert_eq!(differences(STAND_IN_LAKES, &LAKES, 500), [""; 0]);
}

#[test]
fn a_program_that_repeats_its_input_is_caught() {
    for task in [DRAIN, FOLLOW, LAKES] {
        let differences = differences("cat", &task, 20);
        // Every input, and the endless one too.
        assert_eq!(differences.len(), 21);
        assert!(differences[20].contains("endless"));
    }
}

#[test]
fn a_program_that_prints_nothing_is_caught() {
    for task in [DRAIN, FOLLOW, LAKES] {
        assert_eq!(differences("true", &task, 20).len(), 21);
    }
}

/// Two programs agree on refusals only, and on endless input.
#[test]
fn no_program_passes_for_another() {
    for (program, task) in [(STAND_IN_DRAIN, FOLLOW), (STAND_IN_DRAIN, LAKES)] {
        let mut refused = 0;
        let each = |wanted: &str, _, _| refused += u64::from(wanted.starts_with("refused"));
        let differences = compare_program(Path::new(program), &task, 1, 200, each).unwrap();
        assert!(differences.len() as u64 >= 200 - refused);
        assert!((20..150).contains(&refused), "{refused}");
    }
}

#[test]
fn a_program_that_is_not_there_is_an_error() {
    let program = Path::new("no-such-program");
    assert!(compare_program(program, &DRAIN, 1, 1, |_, _, _| ()).is_err());
}
