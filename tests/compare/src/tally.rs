//! The tally of a run: cases, refusals, differences and time, family by family.

use std::fmt;
use std::time::Duration;

use crate::calls::Call;
use crate::cases::Specimen;

/// What one family came to.
#[derive(Clone, Debug)]
struct Row {
    family: &'static str,
    accepted: u64,
    refused: u64,
    library: Duration,
    second: Duration,
}

/// What a whole run of one call came to.
pub struct Tally {
    call: &'static Call,
    rows: Vec<Row>,
    /// How often each of the call's kinds of answer came.
    kinds: Vec<u64>,
    pub differences: u64,
}

impl Tally {
    /// Before the first case.
    pub fn of(call: &'static Call) -> Tally {
        Tally {
            call,
            rows: Vec::new(),
            kinds: vec![0; call.kinds().count()],
            differences: 0,
        }
    }

    /// Counts a case with this room by the second program's answer, with the times of library and
    /// second program.
    pub fn count(
        &mut self,
        specimen: &Specimen,
        room: usize,
        answer: u32,
        (library, second): (Duration, Duration),
    ) {
        let row = self.row(specimen.family);
        row.library += library;
        row.second += second;
        match answer < 65_536 {
            true => row.accepted += 1,
            false => row.refused += 1,
        }
        for (kind, times) in self.call.kinds().zip(&mut self.kinds) {
            *times += u64::from(kind.fits(answer, specimen, room));
        }
    }

    fn row(&mut self, family: &'static str) -> &mut Row {
        let at = self.rows.iter().position(|row| row.family == family);
        let at = at.unwrap_or_else(|| {
            self.rows.push(Row {
                family,
                accepted: 0,
                refused: 0,
                library: Duration::ZERO,
                second: Duration::ZERO,
            });
            self.rows.len() - 1
        });
        &mut self.rows[at]
    }

    /// How many calls have been compared.
    pub fn cases(&self) -> u64 {
        self.rows.iter().map(|row| row.accepted + row.refused).sum()
    }

    /// The kind of refusal given least often, and how often.
    pub fn rarest_refusal(&self) -> (&'static str, u64) {
        let counted = self.call.kinds().zip(&self.kinds);
        counted
            .map(|(kind, &times)| (kind.name, times))
            .min_by_key(|&(_, times)| times)
            .expect("each call has kinds of refusal")
    }
}

impl fmt::Display for Tally {
    fn fmt(&self, to: &mut fmt::Formatter) -> fmt::Result {
        writeln!(
            to,
            "{:<24}{:>10}{:>10}{:>10}{:>12}{:>12}",
            self.call.name, "cases", "accepted", "refused", "library ms", "second ms"
        )?;
        for row in &self.rows {
            let (accepted, refused) = (row.accepted, row.refused);
            writeln!(
                to,
                "{:<24}{:>10}{accepted:>10}{refused:>10}{:>12}{:>12}",
                row.family,
                accepted + refused,
                row.library.as_millis(),
                row.second.as_millis()
            )?;
        }
        write!(to, "refusals")?;
        for (kind, times) in self.call.kinds().zip(&self.kinds) {
            write!(to, "   {}: {times}", kind.name)?;
        }
        Ok(())
    }
}
