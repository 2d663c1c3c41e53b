//! Answers counted by row and by number.

use std::collections::{BTreeMap, BTreeSet};
use std::fmt;

/// The number of what is accepted.
pub const ACCEPTED: u8 = 0;

/// How many answers had each number: those accepted under 0, the others under their refusal's.
pub type Numbers = BTreeMap<u8, u64>;

/// Answers by row, such as what was asked.
#[derive(Clone, Debug, Default, PartialEq, Eq)]
pub struct Rows(BTreeMap<String, Numbers>);

impl Rows {
    pub fn count(&mut self, label: &str, number: u8) {
        self.add(label, &Numbers::from([(number, 1)]));
    }

    pub fn add(&mut self, label: &str, numbers: &Numbers) {
        let row = self.0.entry(label.to_string()).or_default();
        for (&number, count) in numbers {
            *row.entry(number).or_default() += count;
        }
    }

    /// How many answers of a row had a number.
    pub fn of(&self, label: &str, number: u8) -> u64 {
        self.0.get(label).and_then(|row| row.get(&number)).copied().unwrap_or(0)
    }

    /// The answers of all rows.
    pub fn numbers(&self) -> Numbers {
        let mut all = Rows::default();
        self.0.values().for_each(|row| all.add("", row));
        all.0.remove("").unwrap_or_default()
    }
}

/// How many answers there are.
pub fn total(numbers: &Numbers) -> u64 {
    numbers.values().sum()
}

impl fmt::Display for Rows {
    fn fmt(&self, f: &mut fmt::Formatter<'_>) -> fmt::Result {
        let numbers: BTreeSet<u8> = self.0.values().flat_map(|row| row.keys().copied()).collect();
        let numbers: Vec<u8> = numbers.into_iter().filter(|&number| number != ACCEPTED).collect();
        write!(f, "| {:<34} | {:>8} | {:>8} |", "Asked", "Answers", "Accepted")?;
        numbers.iter().try_for_each(|number| write!(f, " {:>6} |", number))?;
        writeln!(f, "\n|---|---|---|{}", "---|".repeat(numbers.len()))?;
        for (label, row) in &self.0 {
            write!(f, "| {:<34} | {:>8} | {:>8} |", label, total(row), self.of(label, ACCEPTED))?;
            for &number in &numbers {
                write!(f, " {:>6} |", self.of(label, number))?;
            }
            writeln!(f)?;
        }
        Ok(())
    }
}
