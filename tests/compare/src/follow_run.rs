//! The inputs of the `follow` program, and a tally of what it answered.

use std::fmt;

use second::follow::text;

use crate::program_run::Task;
use crate::questions::input;

/// How many questions a run asks the program when nothing else is asked for.
pub const DEFAULT_QUESTIONS: u64 = 2_000;

/// What `follow` is given, and what it should print.
pub const FOLLOW: Task = Task { input, text };

/// Each kind of answer: how its line starts, and how often a default run must have seen it.
const KINDS: [(&str, u64); 5] = [
    ("outlet ", 200),
    ("stopped ", 200),
    ("refused 2 ", 200),
    ("refused 8 ", 500),
    ("refused 9 ", 500),
];

/// How often each kind of answer was wanted.
#[derive(Clone, Debug, Default)]
pub struct Answers([u64; KINDS.len()]);

impl Answers {
    /// Counts one answer by its line.
    pub fn count(&mut self, line: &str) {
        let kind = KINDS.iter().position(|(start, _)| line.starts_with(start));
        self.0[kind.expect("every answer is of some kind")] += 1;
    }

    /// The kinds that came too rarely for a default run.
    pub fn too_rare(&self) -> Vec<&'static str> {
        let counted = KINDS.iter().zip(self.0);
        let rare = counted.filter(|((_, least), times)| times < least);
        rare.map(|((start, _), _)| start.trim_end()).collect()
    }
}

impl fmt::Display for Answers {
    fn fmt(&self, to: &mut fmt::Formatter) -> fmt::Result {
        write!(to, "answers")?;
        for ((start, _), times) in KINDS.iter().zip(self.0) {
            write!(to, "   {}: {times}", start.trim_end())?;
        }
        Ok(())
    }
}

#[cfg(test)]
mod tests {
    use super::*;

    fn answers(seed: u64, questions: u64) -> Answers {
        let mut answers = Answers::default();
        for index in 0..questions {
            answers.count(&text(&input(seed, index).1));
        }
        answers
    }

    #[test]
    fn a_default_run_sees_enough_of_each_kind() {
        for seed in 1..=20 {
            let answers = answers(seed, DEFAULT_QUESTIONS);
            assert!(answers.too_rare().is_empty(), "seed {seed}: {answers}");
        }
    }

    #[test]
    fn a_kind_that_is_rare_is_named() {
        let mut answers = answers(1, DEFAULT_QUESTIONS);
        answers.0[3] = 499;
        assert_eq!(answers.too_rare(), ["refused 8"]);
        assert_eq!(Answers::default().too_rare().len(), KINDS.len());
    }
}
