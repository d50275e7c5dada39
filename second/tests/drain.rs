//! The printing program, run as a program: its text.

use std::io::Write;
use std::process::{Command, Stdio};

const F_RECORD: [u8; 30] = [
    0xFD, 0xFF, 0xFF, 0xFF, 0x04, 0x00, 0x00, 0x00, 0x00, 0x01, 0x02, 0x00, 0x03, 0x00, 0x02, 0x00,
    0x01, 0x00, 0x0E, 0x00, 0x00, 0x00, 0x06, 0x00, 0x00, 0x00, 0x04, 0x00, 0x00, 0x00,
];

fn printed(input: &[u8]) -> String {
    let mut program = Command::new(env!("CARGO_BIN_EXE_second-drain"))
        .stdin(Stdio::piped())
        .stdout(Stdio::piped())
        .spawn()
        .unwrap();
    program.stdin.take().unwrap().write_all(input).unwrap();
    let output = program.wait_with_output().unwrap();
    String::from_utf8(output.stdout).unwrap()
}

#[test]
fn f_is_printed() {
    let wanted = "tile 2 1\n0 1 4 2\n1 1 4 5\nout 5 of 5\n";
    assert_eq!(printed(&F_RECORD), wanted);
}

#[test]
fn refused_input_is_one_line() {
    assert_eq!(printed(&[]), "refused 2 0\n");
    assert_eq!(printed(&[0; 16]), "refused 1 0\n");
    let mut bad_height = F_RECORD;
    bad_height[7] = 0x7F;
    assert_eq!(printed(&bad_height), "refused 4 1\n");
}

/// 28,688 zero bytes name the width 0; one byte more is refused before that is seen.
#[test]
fn too_long_an_input_is_refused_before_it_is_judged() {
    assert_eq!(printed(&[0; 28_688]), "refused 1 0\n");
    assert_eq!(printed(&[0; 28_689]), "refused 2 0\n");
}
