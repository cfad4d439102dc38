//! What was found in all cases.

use crate::beside::Limit;
use crate::check::Outcome;
use crate::problem::Problem;
use crate::sections::Section;
use dwcheck::FaultKind;
use std::collections::BTreeMap;
use std::fmt;
use std::time::Duration;

/// How many problems are kept as text.
const KEPT: usize = 20;

/// The counts of some cases.
#[derive(Default)]
pub struct Counts {
    cases: u64,
    accepted: u64,
    fdes: u64,
    rows: u64,
    unread: BTreeMap<Limit, u64>,
    refused: BTreeMap<u32, u64>,
    longest: Duration,
    pub problems: u64,
    texts: Vec<String>,
}

impl Counts {
    /// Counts a case: the section, what came of it, and how long it took.
    pub fn add(&mut self, section: &Section, outcome: Result<Outcome, Problem>, took: Duration) {
        self.cases += 1;
        self.longest = self.longest.max(took);
        match outcome {
            Ok(Outcome::Accepted(accepted)) => {
                self.accepted += 1;
                self.fdes += accepted.fdes;
                self.rows += accepted.rows;
                add_all(&mut self.unread, accepted.unread);
            }
            Ok(Outcome::Refused(fault)) => *self.refused.entry(fault.number()).or_default() += 1,
            Err(problem) => {
                self.problems += 1;
                self.texts.push(format!("{}\n    {}", problem, section.line()));
                self.texts.truncate(KEPT);
            }
        }
    }

    /// These counts and others together.
    pub fn and(mut self, other: Counts) -> Counts {
        self.cases += other.cases;
        self.accepted += other.accepted;
        self.fdes += other.fdes;
        self.rows += other.rows;
        add_all(&mut self.unread, other.unread);
        add_all(&mut self.refused, other.refused);
        self.longest = self.longest.max(other.longest);
        self.problems += other.problems;
        self.texts.extend(other.texts);
        self.texts.truncate(KEPT);
        self
    }
}

fn add_all<K: Ord>(counts: &mut BTreeMap<K, u64>, others: BTreeMap<K, u64>) {
    for (key, count) in others {
        *counts.entry(key).or_default() += count;
    }
}

impl fmt::Display for Counts {
    fn fmt(&self, f: &mut fmt::Formatter<'_>) -> fmt::Result {
        writeln!(f, "cases {}", self.cases)?;
        writeln!(f, "accepted {}: {} FDEs with {} rows are gimli's", self.accepted, self.fdes, self.rows)?;
        for (limit, count) in &self.unread {
            writeln!(f, "{:10} FDEs that gimli doesn't read: {:?}", count, limit)?;
        }
        writeln!(f, "refused {}", self.refused.values().sum::<u64>())?;
        for (number, count) in &self.refused {
            writeln!(f, "{:10} {} {}", count, number, FaultKind::from_number(*number).name())?;
        }
        writeln!(f, "the longest took {:?}", self.longest)?;
        self.texts.iter().try_for_each(|text| writeln!(f, "{}", text))?;
        write!(f, "{} problems", self.problems)
    }
}
