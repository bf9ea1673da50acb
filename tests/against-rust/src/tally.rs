//! Counts of what was asked and what came out.
use oracle::{
    answer::{Answer, Operation},
    generate::Kind,
    sheet::Refusal,
};
use std::{fmt, ops::AddAssign};

/// The refusals by their numbers: 18 does not occur, and there is no 20.
const REFUSALS: [usize; 19] = [1, 2, 3, 4, 5, 6, 7, 8, 9, 10, 11, 12, 13, 14, 15, 16, 17, 19, 21];
/// One more than the greatest number.
const NUMBERS: usize = 22;

#[derive(Clone, Default)]
pub struct Tally {
    pub sheets: usize,
    asked: [usize; Operation::ALL.len()],
    accepted: usize,
    equal: usize,
    unequal: usize,
    refused: [usize; NUMBERS],
}

impl Tally {
    pub fn count(&mut self, operation: Operation, answer: &Result<Answer, Refusal>) {
        self.asked[operation as usize] += 1;
        match answer {
            Ok(Answer::Equal(true)) => self.equal += 1,
            Ok(Answer::Equal(false)) => self.unequal += 1,
            Ok(_) => self.accepted += 1,
            Err(refusal) => self.refused[refusal.number as usize] += 1,
        }
    }

    /// How often anything was asked.
    pub fn questions(&self) -> usize {
        self.asked.iter().sum()
    }

    /// The refusals that did not occur.
    pub fn missing(&self) -> Vec<usize> {
        REFUSALS.into_iter().filter(|number| self.refused[*number] == 0).collect()
    }

    fn rows(&self) -> Vec<(String, usize)> {
        let mut rows = vec![("sheets".to_string(), self.sheets)];
        rows.extend(
            Operation::ALL.into_iter().map(|operation| (operation.to_string(), self.asked[operation as usize])),
        );
        rows.extend([
            ("accepted".to_string(), self.accepted),
            ("compared: yes".to_string(), self.equal),
            ("compared: no".to_string(), self.unequal),
        ]);
        rows.extend(REFUSALS.into_iter().map(|number| (format!("refused {number}"), self.refused[number])));
        rows
    }
}

impl AddAssign<&Tally> for Tally {
    fn add_assign(&mut self, other: &Tally) {
        self.sheets += other.sheets;
        self.accepted += other.accepted;
        self.equal += other.equal;
        self.unequal += other.unequal;
        self.asked.iter_mut().zip(other.asked).for_each(|(sum, count)| *sum += count);
        self.refused.iter_mut().zip(other.refused).for_each(|(sum, count)| *sum += count);
    }
}

/// The tallies of several kinds side by side, with their sum.
pub struct Table<'a>(pub &'a [(Kind, Tally)]);

impl Table<'_> {
    pub fn sum(&self) -> Tally {
        let mut sum = Tally::default();
        self.0.iter().for_each(|(_, tally)| sum += tally);
        sum
    }
}

impl fmt::Display for Table<'_> {
    fn fmt(&self, f: &mut fmt::Formatter) -> fmt::Result {
        write!(f, "{:14}", "")?;
        self.0.iter().try_for_each(|(kind, _)| write!(f, "{kind:>11}"))?;
        writeln!(f, "{:>11}", "sum")?;
        let columns: Vec<Vec<(String, usize)>> = self.0.iter().map(|(_, tally)| tally.rows()).collect();
        for (row, (name, sum)) in self.sum().rows().into_iter().enumerate() {
            write!(f, "{name:14}")?;
            columns.iter().try_for_each(|column| write!(f, "{:>11}", column[row].1))?;
            writeln!(f, "{sum:>11}")?;
        }
        Ok(())
    }
}
