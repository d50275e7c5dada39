//! The comparison program as a program: its last line and its exit status.

use std::process::{Command, Output};

fn run(arguments: &[&str]) -> Output {
    Command::new(env!("CARGO_BIN_EXE_compare"))
        .args(arguments)
        .output()
        .unwrap()
}

fn last_line(output: &Output) -> String {
    let text = String::from_utf8_lossy(&output.stdout);
    text.lines().last().unwrap_or_default().to_string()
}

#[test]
fn no_difference_gives_status_0() {
    let output = run(&["--cases", "400", "--seed", "9"]);
    // 400 networks, 120 lists of lakes and 960 networks over the neighbours and in the manner asked for;
    // every 3 by 3 tile for all three, the last with both counts and in both manners; and the worked
    // examples of two.
    let cases = 400 + 120 + 960 + 6 * 177_147 + 240 + 240;
    let wanted = format!("compare: {cases} cases, 0 differences");
    assert_eq!(last_line(&output), wanted);
    assert_eq!(output.status.code(), Some(0));
}

#[test]
fn a_difference_gives_status_1() {
    let output = run(&["--drain", "cat", "--cases", "5"]);
    // Five inputs and the endless one.
    assert_eq!(last_line(&output), "compare: 6 cases, 6 differences");
    assert_eq!(output.status.code(), Some(1));
}

#[test]
fn questions_are_counted_by_their_answers() {
    let follow = env!("CARGO_BIN_EXE_stand-in-follow");
    let output = run(&["--follow", follow, "--cases", "230"]);
    assert_eq!(last_line(&output), "compare: 231 cases, 0 differences");
    assert_eq!(output.status.code(), Some(0));
    let text = String::from_utf8_lossy(&output.stdout);
    assert!(text.contains("refused 8: 6"), "{text}");
}

#[test]
fn a_wrong_argument_gives_status_2() {
    assert_eq!(run(&["--fast"]).status.code(), Some(2));
}
