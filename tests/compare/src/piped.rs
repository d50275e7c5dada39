//! The C calls in a program of their own, behind a pipe: for machines that can't link the libraries.
//! `emulated/call.cpp` is that program, and `ASKVIMUR_CALL` names what starts it.

use std::env;
use std::io::{self, Read, Write};
use std::process::{Child, ChildStdin, ChildStdout, Command, Stdio};
use std::sync::{Mutex, OnceLock};

use crate::asked::{asked, Asked};
use crate::library::Libraries;

/// The variable that names the program.
pub const VARIABLE: &str = "ASKVIMUR_CALL";

pub const LIBRARIES: Libraries = Libraries {
    description: "the C calls of libaskvimur.a and libaskvimur_service.a, behind a pipe",
    askvimur_network: |ground, network| called(NETWORK, NOT_ASKED, ground, network),
    askvimur_lakes: |ground, lakes| called(LAKES, NOT_ASKED, ground, lakes),
    askvimur_network_by: |neighbours, manner, ground, network| {
        called(NETWORK_BY, asked(neighbours, manner), ground, network)
    },
};

/// The numbers by which the program knows the calls.
const NETWORK: u32 = 0;
const LAKES: u32 = 1;
const NETWORK_BY: u32 = 2;

/// What stands in the place of what is asked for with a call that isn't told so.
const NOT_ASKED: Asked = asked(0, 0);

/// The running program and its two pipes.
struct Pipe {
    _program: Child,
    calls: ChildStdin,
    outcomes: ChildStdout,
}

/// Whether a program is named.
pub fn is_named() -> bool {
    env::var_os(VARIABLE).is_some()
}

/// Makes the call there. A byte that is altered without having been lent ends the comparison.
fn called(number: u32, asked: Asked, ground: &[u8], room: &mut [u8]) -> u32 {
    static PIPE: OnceLock<Mutex<Pipe>> = OnceLock::new();
    let pipe =
        PIPE.get_or_init(|| Mutex::new(started().expect("the program behind the pipe starts")));
    let (answer, kept) = pipe
        .lock()
        .expect("no call before this one panicked")
        .call([number, asked.neighbours, asked.manner], ground, room)
        .expect("the program behind the pipe answers");
    assert!(kept, "a byte that was not lent for writing is altered");
    answer
}

fn started() -> io::Result<Pipe> {
    let program = env::var_os(VARIABLE).expect("the variable was there when the run began");
    let mut program = Command::new(program)
        .stdin(Stdio::piped())
        .stdout(Stdio::piped())
        .spawn()?;
    Ok(Pipe {
        calls: program.stdin.take().expect("its input is a pipe"),
        outcomes: program.stdout.take().expect("its output is a pipe"),
        _program: program,
    })
}

impl Pipe {
    /// The answer, and whether every byte that was not lent for writing is as it was. The number of the
    /// call, the neighbours and the manner asked for come first.
    fn call(&mut self, first: [u32; 3], ground: &[u8], room: &mut [u8]) -> io::Result<(u32, bool)> {
        let mut call = Vec::with_capacity(20 + ground.len() + room.len());
        let lengths = [ground.len() as u32, room.len() as u32];
        for number in first.into_iter().chain(lengths) {
            call.extend(number.to_le_bytes());
        }
        call.extend_from_slice(ground);
        call.extend_from_slice(room);
        self.calls.write_all(&call)?;
        self.calls.flush()?;
        let answer = self.number()?;
        let kept = self.number()? == 1;
        self.outcomes.read_exact(room)?;
        Ok((answer, kept))
    }

    fn number(&mut self) -> io::Result<u32> {
        let mut bytes = [0; 4];
        self.outcomes.read_exact(&mut bytes)?;
        Ok(u32::from_le_bytes(bytes))
    }
}
