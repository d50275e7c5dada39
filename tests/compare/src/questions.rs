//! Questions to the trace: a seed and an index give the bytes of one.

use second::follow::Question;
use second::network::network;
use second::trace::{Ending, Trace};

use crate::chance::Chance;
use crate::families::FAMILIES as GROUNDS;

/// A family of questions.
struct Family {
    name: &'static str,
    make: fn(&mut Chance) -> Vec<u8>,
}

/// Every family. They take turns, so that each kind of answer comes often.
const FAMILIES: [Family; 23] = [
    // 8
    family("cell at a network's length", |chance| {
        let receivers = receivers_of_a_tile(chance);
        ask(receivers.len(), any_budget(chance), receivers)
    }),
    family("cell past a network", |chance| {
        let receivers = receivers_of_a_tile(chance);
        ask(past(chance, receivers.len()), any_budget(chance), receivers)
    }),
    family("cell past a ring", |chance| {
        let receivers = ring(chance);
        ask(past(chance, receivers.len()), any_budget(chance), receivers)
    }),
    family("cell of more than 16 bits", |chance| {
        let receivers = receivers_of_a_tile(chance);
        let low = chance.below(receivers.len());
        let cell = (1 + chance.below(65_535)) * 65_536 + low;
        ask(cell, any_budget(chance), receivers)
    }),
    family("cell past a random list", |chance| {
        let receivers = random_list(chance);
        ask(past(chance, receivers.len()), any_budget(chance), receivers)
    }),
    family("cell past the shortest and the longest list", |chance| {
        let length = chance.pick(&[1, 4_096]);
        let cell = chance.pick(&[length, u32::MAX as usize]);
        ask(cell, any_budget(chance), way(chance, length, 0).receivers)
    }),
    // 9
    family("entry at the list's length", |chance| {
        let length = any_length(chance);
        let way = way(chance, length, length);
        way.ask(chance, Budget::Enough)
    }),
    family("entry past the list", |chance| {
        let length = any_length(chance);
        let entry = length + chance.below(65_536 - length);
        way(chance, length, entry).ask(chance, Budget::Enough)
    }),
    family("bad entry with a spent budget", |chance| {
        let length = any_length(chance);
        way(chance, length, 65_535).ask(chance, Budget::Exact)
    }),
    family("bad entry at the start", |chance| {
        let length = any_length(chance);
        let way = way(chance, length, length + 1);
        ask(way.cells[0], any_budget(chance), way.receivers)
    }),
    family("network with a bad entry", |chance| {
        let mut receivers = receivers_of_a_tile(chance);
        let (start, length) = (chance.below(receivers.len()), receivers.len());
        let (Ending::Outlet(end) | Ending::Stopped(end)) = end_of_way(&receivers, start).ending;
        receivers[end.index()] = length as u16;
        ask(start, u32::MAX, receivers)
    }),
    family("bad entry in the longest list", |chance| {
        let way = way(chance, 4_096, 4_096);
        way.ask(chance, Budget::Enough)
    }),
    // 2
    family("under 8 bytes", |chance| {
        let length = chance.below(8);
        random_bytes(chance, length)
    }),
    family("half an entry", |chance| {
        let length = any_length(chance);
        let mut bytes = way(chance, length, 0).ask(chance, Budget::Enough);
        match chance.one_in(2) {
            true => bytes.push(0),
            false => bytes.truncate(bytes.len() - 1),
        }
        bytes
    }),
    family("no entries, or too many", |chance| {
        let more = 4_097 + chance.below(2_000);
        let entries = chance.pick(&[0, 4_097, more]);
        ask(0, any_budget(chance), vec![0; entries])
    }),
    // an outlet
    family("network", |chance| {
        let receivers = receivers_of_a_tile(chance);
        let cell = chance.below(receivers.len());
        let budget = chance.pick(&[receivers.len() as u32, u32::MAX]);
        ask(cell, budget, receivers)
    }),
    family("network with just enough steps", |chance| {
        let receivers = receivers_of_a_tile(chance);
        let cell = chance.below(receivers.len());
        let steps = end_of_way(&receivers, cell).steps;
        ask(cell, steps, receivers)
    }),
    family("way to an outlet", |chance| {
        let length = any_length(chance);
        let budget = chance.pick(&[Budget::Exact, Budget::Enough]);
        way_to_outlet(chance, length).ask(chance, budget)
    }),
    // a stop
    family("ring", |chance| {
        let receivers = ring(chance);
        let cell = chance.below(receivers.len());
        ask(cell, any_budget(chance), receivers)
    }),
    family("ring with the largest budgets", |chance| {
        let receivers = ring(chance);
        let cell = chance.below(receivers.len());
        let budget = u32::MAX - chance.pick(&[0, 0, 1, 2, 4_096]);
        ask(cell, budget, receivers)
    }),
    family("way with too few steps", |chance| {
        let length = any_length(chance).max(2);
        way_to_outlet(chance, length).ask(chance, Budget::TooSmall)
    }),
    // anything
    family("random list", |chance| {
        let receivers = random_list(chance);
        let cell = chance.below(receivers.len() + 1);
        ask(cell, chance.below(30) as u32, receivers)
    }),
    family("random bytes", |chance| {
        let length = chance.below(40);
        random_bytes(chance, length)
    }),
];

const fn family(name: &'static str, make: fn(&mut Chance) -> Vec<u8>) -> Family {
    Family { name, make }
}

/// The question with this index, and its family.
pub fn input(seed: u64, index: u64) -> (&'static str, Vec<u8>) {
    let mut chance = Chance::of_case(seed, index);
    let family = &FAMILIES[(index % FAMILIES.len() as u64) as usize];
    (family.name, (family.make)(&mut chance))
}

fn ask(cell: usize, budget: u32, receivers: Vec<u16>) -> Vec<u8> {
    let cell = cell as u32;
    let question = Question {
        cell,
        budget,
        receivers,
    };
    question.bytes()
}

/// A cell that is on no list of this length.
fn past(chance: &mut Chance, length: usize) -> usize {
    let near = length + chance.below(3);
    let far = length + chance.below(u32::MAX as usize - length);
    chance.pick(&[near, far, u32::MAX as usize])
}

fn any_budget(chance: &mut Chance) -> u32 {
    let any = chance.number() as u32;
    let small = chance.below(10_000) as u32;
    chance.pick(&[0, 1, small, any, u32::MAX])
}

fn any_length(chance: &mut Chance) -> usize {
    let few = 1 + chance.below(64);
    let many = 1 + chance.below(4_096);
    chance.pick(&[1, 2, 3, few, few, many, 4_095, 4_096])
}

fn random_bytes(chance: &mut Chance, length: usize) -> Vec<u8> {
    (0..length).map(|_| chance.number() as u8).collect()
}

/// A short list, with an entry outside it once in a while.
fn random_list(chance: &mut Chance) -> Vec<u16> {
    let length = 1 + chance.below(20);
    let below = length + usize::from(chance.one_in(3));
    (0..length).map(|_| chance.below(below) as u16).collect()
}

/// The receivers of a generated tile.
fn receivers_of_a_tile(chance: &mut Chance) -> Vec<u16> {
    let ground = (GROUNDS[chance.below(GROUNDS.len())].make)(chance);
    let receivers = network(&ground).receivers;
    receivers.iter().map(|receiver| receiver.0).collect()
}

/// The end of a way along a tile's receivers.
fn end_of_way(receivers: &[u16], cell: usize) -> Trace {
    let question = Question {
        cell: cell as u32,
        budget: u32::MAX,
        receivers: receivers.to_vec(),
    };
    question.answer().expect("a tile's receivers are sound")
}

/// All cells in some order.
fn shuffled(chance: &mut Chance, length: usize) -> Vec<usize> {
    let mut cells: Vec<usize> = (0..length).collect();
    for at in (1..length).rev() {
        cells.swap(at, chance.below(at + 1));
    }
    cells
}

/// A list with a ring of at least two cells, which all other cells lead to.
fn ring(chance: &mut Chance) -> Vec<u16> {
    let length = any_length(chance).max(2);
    let round = 2 + chance.below(length - 1);
    let cells = shuffled(chance, length);
    let mut receivers = vec![0; length];
    for at in 0..length {
        let next = match at {
            0 => cells[round - 1],
            _ => cells[at - 1],
        };
        receivers[cells[at]] = next as u16;
    }
    receivers
}

/// A list that is one way over all its cells.
struct Way {
    /// From the way's end to its start.
    cells: Vec<usize>,
    receivers: Vec<u16>,
}

/// The budget of a question, by the steps from the cell to the way's end.
#[derive(Clone, Copy)]
enum Budget {
    Exact,
    Enough,
    TooSmall,
}

/// A way whose last cell holds this entry.
fn way(chance: &mut Chance, length: usize, entry: usize) -> Way {
    let cells = shuffled(chance, length);
    Way::along(cells, entry)
}

fn way_to_outlet(chance: &mut Chance, length: usize) -> Way {
    let cells = shuffled(chance, length);
    let outlet = cells[0];
    Way::along(cells, outlet)
}

impl Way {
    fn along(cells: Vec<usize>, entry: usize) -> Way {
        let mut receivers = vec![0; cells.len()];
        receivers[cells[0]] = entry as u16;
        for pair in cells.windows(2) {
            receivers[pair[1]] = pair[0] as u16;
        }
        Way { cells, receivers }
    }

    /// Asks from some cell of the way. Too small a budget needs a way of two cells.
    fn ask(self, chance: &mut Chance, budget: Budget) -> Vec<u8> {
        let steps = chance.below(self.cells.len());
        let (steps, budget) = match budget {
            Budget::Exact => (steps, steps as u32),
            Budget::Enough => {
                let more = (steps + chance.below(5)) as u32;
                (steps, chance.pick(&[more, more, u32::MAX]))
            }
            Budget::TooSmall => {
                let steps = steps.max(1);
                (steps, chance.below(steps) as u32)
            }
        };
        ask(self.cells[steps], budget, self.receivers)
    }
}

#[cfg(test)]
mod tests {
    use super::*;
    use second::follow::{text, LONGEST};

    #[test]
    fn the_same_seed_and_index_give_the_same_question() {
        for index in 0..100 {
            assert_eq!(input(7, index), input(7, index));
        }
    }

    /// The first six families are refused with 8, the next six with 9, and so on.
    #[test]
    fn each_family_gives_the_answers_that_it_is_for() {
        let answers = [
            ("refused 8 ", 6),
            ("refused 9 ", 6),
            ("refused 2 ", 3),
            ("outlet ", 3),
            ("stopped ", 3),
            ("", 2),
        ];
        let of_family: Vec<&str> = answers
            .iter()
            .flat_map(|&(answer, families)| vec![answer; families])
            .collect();
        for index in 0..2_300 {
            let wanted = of_family[index as usize % FAMILIES.len()];
            let (family, input) = input(5, index);
            let text = text(&input);
            assert!(text.starts_with(wanted), "{family} {index}: {text}");
        }
    }

    /// Lists of 0, 1, 4,096 and 4,097 entries, and the largest budget, all come.
    #[test]
    fn the_limits_come() {
        let inputs: Vec<Vec<u8>> = (0..2_000).map(|index| input(1, index).1).collect();
        for length in [
            0,
            7,
            8,
            9,
            10,
            LONGEST - 1,
            LONGEST,
            LONGEST + 1,
            LONGEST + 2,
        ] {
            let found = inputs.iter().any(|input| input.len() == length);
            assert!(found, "no input of {length} bytes");
        }
        let largest = |input: &&Vec<u8>| input.get(4..8) == Some(&[255; 4]);
        assert!(inputs.iter().filter(largest).count() > 200);
    }
}
