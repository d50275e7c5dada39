//! The comparison program: runs what the arguments ask for and ends with one line of result.

use std::env;
use std::path::Path;
use std::process::ExitCode;
use std::time::{Duration, Instant};

use compare::arguments::{Arguments, Mode, USAGE};
use compare::calls::{self, Call};
use compare::comparison::compare;
use compare::difference::Difference;
use compare::exhaustive;
use compare::follow_run::{Answers, DEFAULT_QUESTIONS, FOLLOW};
use compare::library::under_test;
use compare::mutants::{self, following};
use compare::program_run::{compare_program, Task};
use compare::record_runs::{DEFAULT_INPUTS, DRAIN, LAKES};
use compare::tally::Tally;
use compare::worked;

/// How many cases a run has when nothing else is asked for, before each call takes its share.
const DEFAULT_CASES: u64 = 100_000;

/// How often a default run must have seen each kind of refusal.
const LEAST_REFUSALS: u64 = 500;

/// Differences beyond these are counted and not printed.
const MOST_PRINTED: u64 = 10;

fn main() -> ExitCode {
    let arguments = match Arguments::read(env::args().skip(1)) {
        Ok(arguments) => arguments,
        Err(wrong) => {
            eprintln!("{wrong}\n{USAGE}");
            return ExitCode::from(2);
        }
    };
    let good = match &arguments.mode {
        Mode::Everything => everything(&arguments),
        Mode::Exhaustive => every_3_by_3(&arguments),
        Mode::Drain(program) => records(&arguments, program, &DRAIN),
        Mode::Follow(program) => follow(&arguments, program),
        Mode::Lakes(program) => records(&arguments, program, &LAKES),
        Mode::Mutants => mutants(&arguments),
    };
    match good {
        true => ExitCode::SUCCESS,
        false => ExitCode::FAILURE,
    }
}

/// Each call on all its families and on every 3 by 3 tile, then the worked examples.
fn everything(arguments: &Arguments) -> bool {
    let seed = arguments.seed;
    println!("comparing {}, seed {seed}", under_test().description);
    let (mut cases, mut differences, mut often) = (0, 0, true);
    for call in calls::ALL {
        let tally = run_call(arguments, call);
        println!("{tally}");
        often &= often_enough(arguments, &tally);
        cases += tally.cases();
        differences += tally.differences;
    }
    let (lines, wrong) = worked_examples();
    last_line(cases + lines, differences + wrong) && often
}

/// One call on all its families and on every 3 by 3 tile.
fn run_call(arguments: &Arguments, call: &'static Call) -> Tally {
    let seed = arguments.seed;
    let cases = arguments.cases.unwrap_or(DEFAULT_CASES) * call.share / 100;
    let records = cases.div_ceil(call.cases.rooms_each as u64);
    let libraries = under_test();
    let library = call.of(&libraries);
    let mut tally = Tally::of(call);
    let mut progress = Progress::new(arguments, cases + exhaustive::cases(call));
    for index in 0..records {
        let specimen = call.cases.specimen(seed, index);
        if arguments.name_each {
            let (family, asked) = (specimen.family, specimen.asked);
            let name = call.name;
            eprintln!("{name}, family {family}, index {index}, {asked}");
        }
        let difference = compare(call, &library, &specimen, &mut tally);
        print_difference(difference, &tally);
        progress.say(tally.cases(), tally.differences);
    }
    compare_every_3_by_3(call, &mut tally, &mut progress);
    tally
}

/// Whether a default run has seen each kind of refusal.
fn often_enough(arguments: &Arguments, tally: &Tally) -> bool {
    let is_default = arguments.cases.unwrap_or(DEFAULT_CASES) >= DEFAULT_CASES;
    let (kind, times) = tally.rarest_refusal();
    let rare = is_default && times < LEAST_REFUSALS;
    if rare {
        println!("refusal {kind} came only {times} times, which is too few for a default run");
    }
    !rare
}

/// How many worked examples there are, and how many of them the library does not do.
fn worked_examples() -> (u64, u64) {
    let (mut lines, mut differences) = (0, 0);
    for call in calls::ALL.iter().filter(|call| worked::count(call) > 0) {
        let name = call.name;
        let wrong = worked::wrong_lines(call, &call.of(&under_test()));
        println!("worked examples of {name}: {}", worked::count(call));
        for line in wrong.iter().take(MOST_PRINTED as usize) {
            println!("difference: line {line} of the worked examples of {name}");
        }
        lines += worked::count(call) as u64;
        differences += wrong.len() as u64;
    }
    (lines, differences)
}

fn every_3_by_3(arguments: &Arguments) -> bool {
    println!("comparing {}", under_test().description);
    let (mut cases, mut differences) = (0, 0);
    for call in calls::ALL {
        let mut tally = Tally::of(call);
        let mut progress = Progress::new(arguments, exhaustive::cases(call));
        compare_every_3_by_3(call, &mut tally, &mut progress);
        println!("{tally}");
        cases += tally.cases();
        differences += tally.differences;
    }
    last_line(cases, differences)
}

fn compare_every_3_by_3(call: &'static Call, tally: &mut Tally, progress: &mut Progress) {
    let libraries = under_test();
    let library = call.of(&libraries);
    for number in 0..exhaustive::TILES {
        let difference = exhaustive::compare_tile(call, &library, number, tally);
        print_difference(difference, tally);
        progress.say(tally.cases(), tally.differences);
    }
}

/// The text of a program that reads a ground record.
fn records(arguments: &Arguments, program: &Path, task: &Task) -> bool {
    let inputs = arguments.cases.unwrap_or(DEFAULT_INPUTS);
    let differences = run_program(arguments, program, task, inputs, |_| ());
    differences.is_some_and(|differences| last_line(inputs + 1, differences))
}

/// The text of a follow program, and how often each kind of answer came.
fn follow(arguments: &Arguments, program: &Path) -> bool {
    let questions = arguments.cases.unwrap_or(DEFAULT_QUESTIONS);
    let mut answers = Answers::default();
    let count = |wanted: &str| answers.count(wanted);
    let Some(differences) = run_program(arguments, program, &FOLLOW, questions, count) else {
        return false;
    };
    println!("{answers}");
    let mut rare = answers.too_rare();
    rare.retain(|_| questions >= DEFAULT_QUESTIONS);
    for kind in &rare {
        println!("{kind} came too rarely for a default run");
    }
    last_line(questions + 1, differences) && rare.is_empty()
}

/// Compares a program's text on so many inputs and on one endless input more, and tells `seen`
/// each wanted text. The answer is how many differ, if the program can be run.
fn run_program(
    arguments: &Arguments,
    program: &Path,
    task: &Task,
    inputs: u64,
    mut seen: impl FnMut(&str),
) -> Option<u64> {
    let seed = arguments.seed;
    println!("comparing {}, seed {seed}", program.display());
    let mut progress = Progress::new(arguments, inputs);
    let each = |wanted: &str, done, differing| {
        seen(wanted);
        progress.say(done, differing);
    };
    match compare_program(program, task, seed, inputs, each) {
        Ok(differences) => {
            for difference in differences.iter().take(MOST_PRINTED as usize) {
                println!("{difference}");
            }
            Some(differences.len() as u64)
        }
        Err(error) => {
            println!("{} can't be run: {error}", program.display());
            None
        }
    }
}

/// How soon each wrong library and each wrong `follow` text is caught. One that isn't caught is a
/// fault of the harness.
fn mutants(arguments: &Arguments) -> bool {
    let seed = arguments.seed;
    let most = arguments.cases.unwrap_or(mutants::MOST_CASES);
    let mut caught: Vec<bool> = Vec::new();
    for (call, wrong) in mutants::all() {
        println!("{:<60}{:>8}", format!("wrong {}", call.name), "cases");
        caught.extend(wrong.iter().map(|mutant| {
            let caught = mutants::caught_after(call, &mutant.wrong, seed, most);
            print_caught(mutant.name, caught)
        }));
    }
    let most = arguments.cases.unwrap_or(DEFAULT_QUESTIONS);
    println!("{:<60}{:>8}", "wrong text of follow", "cases");
    caught.extend(following::WRONG_TEXTS.iter().map(|mutant| {
        let caught = following::caught_after(mutant.wrong, seed, most);
        print_caught(mutant.name, caught)
    }));
    let missed = caught.iter().filter(|&&caught| !caught).count();
    println!("mutants: {} tried, {missed} missed", caught.len());
    missed == 0
}

fn print_caught(name: &str, after: Option<u64>) -> bool {
    let cases = after.map_or("missed".to_string(), |cases| cases.to_string());
    println!("{name:<60}{cases:>8}");
    after.is_some()
}

fn print_difference(difference: Option<Difference>, tally: &Tally) {
    if let Some(difference) = difference.filter(|_| tally.differences <= MOST_PRINTED) {
        println!("{difference}");
    }
}

fn last_line(cases: u64, differences: u64) -> bool {
    println!("compare: {cases} cases, {differences} differences");
    differences == 0
}

/// A line on the error output every few seconds.
struct Progress {
    wanted: bool,
    all: u64,
    start: Instant,
    next: Duration,
}

impl Progress {
    const EVERY: Duration = Duration::from_secs(5);

    fn new(arguments: &Arguments, all: u64) -> Progress {
        Progress {
            wanted: arguments.progress,
            all,
            start: Instant::now(),
            next: Progress::EVERY,
        }
    }

    fn say(&mut self, done: u64, differences: u64) {
        if self.wanted && self.start.elapsed() >= self.next {
            let seconds = self.start.elapsed().as_secs();
            let all = self.all;
            eprintln!("{done} of {all} cases, {differences} differences, {seconds} s");
            self.next = self.start.elapsed() + Progress::EVERY;
        }
    }
}
