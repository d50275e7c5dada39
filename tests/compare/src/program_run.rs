//! A program as a program: inputs on its standard input, its text compared.

use std::io::{self, Read, Write};
use std::path::Path;
use std::process::{Child, Command, Stdio};
use std::thread;

/// A program that is compared: what it is given, and what it should print.
pub struct Task {
    /// The input with this index, and its family.
    pub input: fn(seed: u64, index: u64) -> (&'static str, Vec<u8>),
    /// The second program's text for an input.
    pub text: fn(&[u8]) -> String,
}

/// Far more than any pipe holds. A program that takes all of it has read on.
const ENDLESS: usize = 16 << 20;

/// Runs the program on so many inputs and on one endless one. The answer is what differed.
/// After each input `each` is told the wanted text, how many inputs were tried, and how many differ.
pub fn compare_program(
    program: &Path,
    task: &Task,
    seed: u64,
    inputs: u64,
    mut each: impl FnMut(&str, u64, u64),
) -> io::Result<Vec<String>> {
    let mut differences = Vec::new();
    for index in 0..inputs {
        let (family, input) = (task.input)(seed, index);
        let printed = printed(program, &input)?;
        let wanted = (task.text)(&input);
        if printed != wanted.as_bytes() {
            let line = first_differing_line(&printed, &wanted);
            differences.push(format!(
                "difference: seed {seed}, family {family}, input {index}\n  {line}"
            ));
        }
        each(&wanted, index + 1, differences.len() as u64);
    }
    differences.extend(compare_endless(program)?);
    Ok(differences)
}

fn started(program: &Path) -> io::Result<Child> {
    Command::new(program)
        .stdin(Stdio::piped())
        .stdout(Stdio::piped())
        .spawn()
}

/// What the program prints for this input.
fn printed(program: &Path, input: &[u8]) -> io::Result<Vec<u8>> {
    let mut child = started(program)?;
    let mut stdin = child.stdin.take().expect("its input is a pipe");
    // A program may stop reading once it has seen enough.
    allow_closed(stdin.write_all(input))?;
    drop(stdin);
    Ok(child.wait_with_output()?.stdout)
}

/// Endless input is refused with 2, and the program stops reading.
fn compare_endless(program: &Path) -> io::Result<Option<String>> {
    let mut child = started(program)?;
    let mut stdin = child.stdin.take().expect("its input is a pipe");
    let mut stdout = child.stdout.take().expect("its output is a pipe");
    // A program may print while it reads, so both go on at once.
    let reader = thread::spawn(move || {
        let mut printed = Vec::new();
        stdout.read_to_end(&mut printed).map(|_| printed)
    });
    let piece = vec![0; 1 << 16];
    let mut taken = 0;
    while taken < ENDLESS && allow_closed(stdin.write_all(&piece))? {
        taken += piece.len();
    }
    drop(stdin);
    child.wait()?;
    let printed = reader.join().expect("reading doesn't panic")?;
    if taken >= ENDLESS {
        return Ok(Some("difference: endless input is read on".to_string()));
    }
    let wanted = "refused 2 0\n";
    Ok((printed != wanted.as_bytes()).then(|| {
        let line = first_differing_line(&printed, wanted);
        format!("difference: endless input\n  {line}")
    }))
}

/// True if all was written, false if the program had closed its input.
fn allow_closed(written: io::Result<()>) -> io::Result<bool> {
    match written {
        Ok(()) => Ok(true),
        Err(error) if error.kind() == io::ErrorKind::BrokenPipe => Ok(false),
        Err(error) => Err(error),
    }
}

/// The first line that differs, with what was wanted there.
fn first_differing_line(printed: &[u8], wanted: &str) -> String {
    let printed = String::from_utf8_lossy(printed);
    let mut printed_lines = printed.split_inclusive('\n');
    let mut wanted_lines = wanted.split_inclusive('\n');
    let mut number = 1;
    loop {
        let (one, other) = (printed_lines.next(), wanted_lines.next());
        if one != other || one.is_none() {
            let one = one.map(|line| line.chars().take(80).collect::<String>());
            return format!("line {number}: program {one:?}, second program {other:?}");
        }
        number += 1;
    }
}
