//! The program `follow`: one question in, one line out. A question is a cell, a budget
//! and a list of receivers.

use std::io::{self, Read, Write};

use crate::program;
use crate::refusal::Refusal;
use crate::text::refused;
use crate::trace::{trace, Ending, Trace};

/// The bytes of the longest question: cell, budget and 4,096 receivers.
pub const LONGEST: usize = 4 + 4 + 2 * 4_096;

/// What a trace is asked with.
#[derive(Clone, Debug, PartialEq, Eq)]
pub struct Question {
    pub cell: u32,
    pub budget: u32,
    pub receivers: Vec<u16>,
}

impl Question {
    /// Cell and budget take four bytes each, a receiver two; all are little-endian.
    /// Too few bytes for cell and budget, half a receiver at the end and more than 4,096 receivers
    /// make a list of a wrong length.
    pub fn read(input: &[u8]) -> Result<Question, Refusal> {
        if input.len() < 8 || input.len() % 2 == 1 || input.len() > LONGEST {
            return Err(Refusal::Length);
        }
        let (front, list) = input.split_at(8);
        let (cell, budget) = front.split_at(4);
        Ok(Question {
            cell: number(cell),
            budget: number(budget),
            receivers: list.chunks(2).map(|pair| number(pair) as u16).collect(),
        })
    }

    /// The bytes that are read as this question.
    pub fn bytes(&self) -> Vec<u8> {
        let mut bytes = [self.cell.to_le_bytes(), self.budget.to_le_bytes()].concat();
        for receiver in &self.receivers {
            bytes.extend(receiver.to_le_bytes());
        }
        bytes
    }

    /// What the trace comes to.
    pub fn answer(&self) -> Result<Trace, Refusal> {
        trace(&self.receivers, self.cell, self.budget)
    }
}

/// A little-endian number.
fn number(bytes: &[u8]) -> u32 {
    let step = |above, &byte| 256 * above + u32::from(byte);
    bytes.iter().rev().fold(0, step)
}

/// What `follow` prints for this input, refused or not. The line ends in one newline.
pub fn text(input: &[u8]) -> String {
    answer_text(Question::read(input).and_then(|question| question.answer()))
}

/// The line of an answer.
pub fn answer_text(answer: Result<Trace, Refusal>) -> String {
    match answer {
        Ok(Trace { ending, steps }) => match ending {
            Ending::Outlet(cell) => format!("outlet {} {steps}\n", cell.0),
            Ending::Stopped(cell) => format!("stopped {} {steps}\n", cell.0),
        },
        Err(refusal) => refused(refusal),
    }
}

/// Reads a question and prints its answer.
pub fn follow(input: impl Read, output: impl Write) -> io::Result<()> {
    program::run(input, output, LONGEST, text)
}
