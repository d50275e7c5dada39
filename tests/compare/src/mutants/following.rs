//! Wrong `follow` texts, to try the questions: each is the second program's with one fault.

use second::follow::{answer_text, text, Question, LONGEST};
use second::ground::Cell;
use second::refusal::Refusal;
use second::trace::{Ending, Trace};

use super::Mutant;
use crate::questions::input;

/// What is printed for an input.
pub type Text = fn(&[u8]) -> String;

/// Every wrong text.
pub const WRONG_TEXTS: &[Mutant<Text>] = mutants![
    // the input
    "half an entry is passed over" => |input| {
        text(&input[..input.len() / 2 * 2])
    },
    "entries past the 4,096th are passed over" => |input| {
        text(&input[..input.len().min(LONGEST)])
    },
    "8 for an input without a list" => |input| {
        match input.len() < 8 {
            true => "refused 8 0\n".to_string(),
            false => text(input),
        }
    },
    "budget before cell" => |input| {
        asked_otherwise(input, |asked| {
            std::mem::swap(&mut asked.cell, &mut asked.budget)
        })
    },
    "cell of 16 bits" => |input| {
        asked_otherwise(input, |asked| asked.cell %= 65_536)
    },
    "budget of 16 bits" => |input| {
        asked_otherwise(input, |asked| asked.budget %= 65_536)
    },
    // the trace
    "a cell at the list's length is taken" => |input| {
        asked_otherwise(input, |asked| {
            if asked.cell as usize == asked.receivers.len() {
                asked.cell = 0;
            }
        })
    },
    "an entry at the list's length is taken" => |input| {
        asked_otherwise(input, |asked| {
            let length = asked.receivers.len();
            for entry in &mut asked.receivers {
                *entry -= u16::from(*entry as usize == length);
            }
        })
    },
    "a spent budget before an outlet" => |input| {
        answered_otherwise(input, |asked, answer| match answer {
            Ok(Trace { ending, steps }) if steps == asked.budget => {
                let (Ending::Outlet(cell) | Ending::Stopped(cell)) = ending;
                let ending = Ending::Stopped(cell);
                Ok(Trace { ending, steps })
            }
            _ => answer,
        })
    },
    "a spent budget before a bad entry" => |input| {
        answered_otherwise(input, |asked, answer| match answer {
            Err(Refusal::TracedEntry(cell)) if steps_to(asked, cell) == asked.budget => {
                let (ending, steps) = (Ending::Stopped(cell), asked.budget);
                Ok(Trace { ending, steps })
            }
            _ => answer,
        })
    },
    "a ring is left one cell later" => |input| {
        answered_otherwise(input, |asked, answer| match answer {
            Ok(Trace { ending, steps }) if steps as usize > asked.receivers.len() => {
                let (Ending::Outlet(cell) | Ending::Stopped(cell)) = ending;
                let ending = Ending::Stopped(Cell(asked.receivers[cell.index()]));
                Ok(Trace { ending, steps })
            }
            _ => answer,
        })
    },
    // the answer
    "invented steps" => |input| {
        answered_otherwise(input, |asked, answer| {
            let Trace { ending, .. } = answer?;
            let steps = asked.budget;
            Ok(Trace { ending, steps })
        })
    },
    "the start as place of 9" => |input| {
        answered_otherwise(input, |asked, answer| match answer {
            Err(Refusal::TracedEntry(_)) => {
                Err(Refusal::TracedEntry(Cell::at(asked.cell as usize)))
            }
            _ => answer,
        })
    },
    "no newline" => |input| text(input).trim_end().to_string(),
];

/// The text for a question that was changed.
fn asked_otherwise(input: &[u8], change: fn(&mut Question)) -> String {
    let changed = Question::read(input).and_then(|mut question| {
        change(&mut question);
        question.answer()
    });
    answer_text(changed)
}

/// The text for an answer that was changed.
fn answered_otherwise(
    input: &[u8],
    change: fn(&Question, Result<Trace, Refusal>) -> Result<Trace, Refusal>,
) -> String {
    answer_text(Question::read(input).and_then(|question| change(&question, question.answer())))
}

/// The steps from the asked cell to this one, which is on its way.
fn steps_to(asked: &Question, cell: Cell) -> u32 {
    let mut asked = asked.clone();
    asked.receivers[cell.index()] = cell.0;
    asked.answer().expect("the way ends in this cell").steps
}

/// After how many questions a text is caught, if it is.
pub fn caught_after(wrong: Text, seed: u64, most_questions: u64) -> Option<u64> {
    (0..most_questions)
        .find(|&index| {
            let (_, input) = input(seed, index);
            wrong(&input) != text(&input)
        })
        .map(|index| index + 1)
}

#[cfg(test)]
mod tests {
    use super::*;
    use crate::follow_run::DEFAULT_QUESTIONS;

    #[test]
    fn the_right_text_is_not_caught() {
        assert_eq!(caught_after(text, 1, DEFAULT_QUESTIONS), None);
        let same: Text = |input| asked_otherwise(input, |_| ());
        assert_eq!(caught_after(same, 1, DEFAULT_QUESTIONS), None);
        let same: Text = |input| answered_otherwise(input, |_, answer| answer);
        assert_eq!(caught_after(same, 1, DEFAULT_QUESTIONS), None);
    }

    #[test]
    fn every_wrong_text_is_caught() {
        for mutant in WRONG_TEXTS {
            for seed in [1, 2] {
                let caught = caught_after(mutant.wrong, seed, DEFAULT_QUESTIONS);
                assert!(caught.is_some(), "seed {seed} misses: {}", mutant.name);
            }
        }
    }

    #[test]
    fn no_name_comes_twice() {
        let mut names: Vec<&str> = WRONG_TEXTS.iter().map(|mutant| mutant.name).collect();
        names.sort();
        names.dedup();
        assert_eq!(names.len(), WRONG_TEXTS.len());
    }
}
