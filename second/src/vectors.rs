//! Worked examples of calls, one a line: what is handed over, what is answered, what is written.

/// One line of nine words. What a call isn't handed has no meaning for it.
#[derive(Clone, Debug, PartialEq, Eq)]
pub struct Vector {
    pub neighbours: u32,
    pub manner: u32,
    pub cell: u32,
    pub height: i32,
    /// The length of the room lent.
    pub room: usize,
    pub answer: u32,
    pub input: Vec<u8>,
    pub season: Vec<u8>,
    /// What stands at the front of the room afterwards; all bytes after it are as they were.
    pub output: Vec<u8>,
}

impl Vector {
    /// Reads a line. One that can't be read is no example, and nothing is known about it.
    pub fn read(line: &str) -> Vector {
        let words: Vec<&str> = line.split(' ').collect();
        let [neighbours, manner, cell, height, room, answer, input, season, output] = words[..]
        else {
            panic!("an example has nine words: {line}");
        };
        let number = |word: &str| word.parse().expect("a number");
        Vector {
            neighbours: number(neighbours),
            manner: number(manner),
            cell: number(cell),
            height: height.parse().expect("a height"),
            room: number(room) as usize,
            answer: number(answer),
            input: bytes(input),
            season: bytes(season),
            output: bytes(output),
        }
    }

    /// Makes a call, which takes of the line what it is handed, and says whether it does as the line
    /// says: the answer, what is written into the room, and no byte more.
    pub fn holds(&self, call: impl Fn(&Vector, &mut [u8]) -> u32) -> bool {
        let before: Vec<u8> = (0..self.room).map(|at| (at * 167 + 13) as u8).collect();
        let mut wanted = before.clone();
        wanted[..self.output.len()].copy_from_slice(&self.output);
        let mut room = before;
        call(self, &mut room) == self.answer && room == wanted
    }
}

/// All examples of a file.
pub fn read_all(text: &str) -> Vec<Vector> {
    text.lines().map(Vector::read).collect()
}

/// Two hexadecimal digits for each byte, or a hyphen for none.
fn bytes(word: &str) -> Vec<u8> {
    if word == "-" {
        return Vec::new();
    }
    assert!(word.len() % 2 == 0, "half a byte: {word}");
    let byte = |at| u8::from_str_radix(&word[at..at + 2], 16).expect("hexadecimal digits");
    (0..word.len()).step_by(2).map(byte).collect()
}
