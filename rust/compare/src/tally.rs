//! How often each answer came, and the first differences.
use crate::judge::Verdict;
use std::collections::BTreeMap;
use std::fmt;

#[derive(Default)]
pub struct Tally {
    /// By number, 0 being a yes.
    pub answers: BTreeMap<u8, usize>,
    /// By number and rounds of macros that were over.
    pub rounds: BTreeMap<(u8, usize), usize>,
    pub skipped: usize,
    pub differences: usize,
    /// The first few, shrunk and told.
    pub told: Vec<String>,
}

impl Tally {
    pub fn count(&mut self, verdict: &Verdict) {
        match verdict {
            Verdict::Agreed(number, rounds) => {
                *self.answers.entry(*number).or_default() += 1;
                *self.rounds.entry((*number, *rounds)).or_default() += 1;
            }
            Verdict::Skipped => self.skipped += 1,
            Verdict::Differs(_) => self.differences += 1,
        }
    }

    pub fn agreed(&self) -> usize {
        self.answers.values().sum()
    }

    /// How often an answer came after so many rounds at least.
    pub fn after(&self, number: u8, least: usize) -> usize {
        self.rounds.range((number, least)..=(number, usize::MAX)).map(|(_, count)| count).sum()
    }

    pub fn add(&mut self, other: Tally) {
        for (number, count) in other.answers {
            *self.answers.entry(number).or_default() += count;
        }
        for (key, count) in other.rounds {
            *self.rounds.entry(key).or_default() += count;
        }
        self.skipped += other.skipped;
        self.differences += other.differences;
        self.told.extend(other.told);
    }

    /// How often after 1, 2, 3 and more rounds, where any.
    fn by_rounds(&self, number: u8) -> String {
        let [one, two, three, four] = [1, 2, 3, 4].map(|least| self.after(number, least));
        match one {
            0 => String::new(),
            _ => format!(" (after 1, 2, 3, more rounds: {}, {}, {}, {four})", one - two, two - three, three - four),
        }
    }
}

impl fmt::Display for Tally {
    fn fmt(&self, f: &mut fmt::Formatter<'_>) -> fmt::Result {
        write!(f, "agreed {}, different {}", self.agreed(), self.differences)?;
        if self.skipped > 0 {
            write!(f, ", skipped: {} ({})", self.skipped, oracle::NOT_THERE)?;
        }
        for (number, count) in &self.answers {
            match number {
                0 => write!(f, "; yes: {count}")?,
                _ => write!(f, ", {number}: {count}")?,
            }
            f.write_str(&self.by_rounds(*number))?;
        }
        Ok(())
    }
}
