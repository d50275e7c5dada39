//! The arguments of the comparison program.

use std::path::PathBuf;

/// How the program is called.
pub const USAGE: &str = "\
usage: compare [--seed N] [--cases N] [--progress] [--name-each]
               [--exhaustive | --drain PROGRAM | --follow PROGRAM | --lakes PROGRAM | --mutants]
  --seed N         another seed gives other records (1)
  --cases N        how many networks to compare; for each hundred of them there are 30 lists of
                   lakes and 240 networks over the neighbours and in the manner asked for;
                   with --drain, --follow or --lakes how many inputs
  --progress       say on the error output how far the run is
  --name-each      name each record before it is tried, to find one that ends the program
  --exhaustive     only every 3 by 3 tile over three heights with one outlet
  --drain PROGRAM  only the text of this drain program
  --follow PROGRAM only the text of this follow program
  --lakes PROGRAM  only the text of this lakes program
  --mutants        only how soon each wrong library and each wrong text of follow is caught";

/// What a run does.
#[derive(Clone, Debug, PartialEq, Eq)]
pub enum Mode {
    Everything,
    Exhaustive,
    Drain(PathBuf),
    Follow(PathBuf),
    Lakes(PathBuf),
    Mutants,
}

/// What was asked for.
#[derive(Clone, Debug, PartialEq, Eq)]
pub struct Arguments {
    pub mode: Mode,
    pub seed: u64,
    pub cases: Option<u64>,
    pub progress: bool,
    pub name_each: bool,
}

impl Arguments {
    /// Reads the arguments after the program's name.
    pub fn read(words: impl IntoIterator<Item = String>) -> Result<Arguments, String> {
        let mut arguments = Arguments {
            mode: Mode::Everything,
            seed: 1,
            cases: None,
            progress: false,
            name_each: false,
        };
        let mut words = words.into_iter();
        while let Some(word) = words.next() {
            match word.as_str() {
                "--seed" => arguments.seed = number(&word, words.next())?,
                "--cases" => arguments.cases = Some(number(&word, words.next())?),
                "--progress" => arguments.progress = true,
                "--name-each" => arguments.name_each = true,
                "--exhaustive" => arguments.mode = Mode::Exhaustive,
                "--mutants" => arguments.mode = Mode::Mutants,
                "--drain" => arguments.mode = Mode::Drain(program(&word, words.next())?),
                "--follow" => arguments.mode = Mode::Follow(program(&word, words.next())?),
                "--lakes" => arguments.mode = Mode::Lakes(program(&word, words.next())?),
                _ => return Err(format!("unknown argument {word}")),
            }
        }
        Ok(arguments)
    }
}

fn program(name: &str, word: Option<String>) -> Result<PathBuf, String> {
    let word = word.ok_or(format!("{name} needs a program"))?;
    Ok(PathBuf::from(word))
}

fn number(name: &str, word: Option<String>) -> Result<u64, String> {
    let word = word.ok_or(format!("{name} needs a number"))?;
    word.replace('_', "")
        .parse()
        .map_err(|_| format!("{name} needs a number, not {word}"))
}

#[cfg(test)]
mod tests {
    use super::*;

    fn read(words: &str) -> Result<Arguments, String> {
        Arguments::read(words.split_whitespace().map(str::to_string))
    }

    #[test]
    fn each_argument_is_read() {
        let found = read("--seed 7 --cases 1_000 --progress --drain ./drain").unwrap();
        let wanted = Arguments {
            mode: Mode::Drain(PathBuf::from("./drain")),
            seed: 7,
            cases: Some(1_000),
            progress: true,
            name_each: false,
        };
        assert_eq!(found, wanted);
        assert_eq!(read("").unwrap().mode, Mode::Everything);
        assert_eq!(read("--exhaustive").unwrap().mode, Mode::Exhaustive);
        let follow = Mode::Follow(PathBuf::from("./follow"));
        assert_eq!(read("--follow ./follow").unwrap().mode, follow);
        let lakes = Mode::Lakes(PathBuf::from("./lakes"));
        assert_eq!(read("--lakes ./lakes").unwrap().mode, lakes);
    }

    #[test]
    fn a_wrong_argument_is_named() {
        assert!(read("--seed x").unwrap_err().contains("--seed"));
        assert!(read("--cases").unwrap_err().contains("--cases"));
        assert!(read("--follow").unwrap_err().contains("--follow"));
        assert!(read("--fast").unwrap_err().contains("--fast"));
    }
}
