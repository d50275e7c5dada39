//! Groups that are joined one by one: numbers from 0 with the same label are in one group.

/// Some numbers, each in one group.
pub struct Groups {
    /// The label of each number: one of its group.
    labels: Vec<usize>,
    /// The numbers with each label.
    members: Vec<Vec<usize>>,
}

impl Groups {
    /// So many numbers, each in a group of its own.
    pub fn apart(count: usize) -> Groups {
        Groups {
            labels: (0..count).collect(),
            members: (0..count).map(|number| vec![number]).collect(),
        }
    }

    pub fn joined(&self, one: usize, other: usize) -> bool {
        self.labels[one] == self.labels[other]
    }

    /// Gives all of one group the label of the other. The smaller one changes, to save time.
    pub fn join(&mut self, one: usize, other: usize) {
        let (mut kept, mut given_up) = (self.labels[one], self.labels[other]);
        if self.members[kept].len() < self.members[given_up].len() {
            (kept, given_up) = (given_up, kept);
        }
        for number in std::mem::take(&mut self.members[given_up]) {
            self.labels[number] = kept;
            self.members[kept].push(number);
        }
    }
}
