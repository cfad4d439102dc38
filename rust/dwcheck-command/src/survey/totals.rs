//! The totals of a survey: counts of files and sections.

use crate::end::Done;
use crate::files::Files;
use dwcheck_store::{Answer, Outcome};
use std::io::{self, Write};

/// The names of the counts, in the order in which they are written: a line for files, one for sections, one for what
/// accepted sections hold, and one for notes on frame sections.
///
/// `files` are ELF files, no two of which have the same bytes; `repeated` are further ones, each with the same bytes as
/// one of these. `unread` counts files and folders that couldn't be read, and files with a section that couldn't be.
/// A section that couldn't be rewritten has no bytes.
const LINES: [(&str, &[&str]); 4] = [
    ("", &["files", "repeated", "unread"]),
    ("", &["sections", "accepted", "refused", "bytes"]),
    ("", &["cies", "fdes", "rows", "lists", "expressions"]),
    ("note ", &["signal-frames", "args-sizes", "mended", "empty-records", "copies", "negated"]),
];

/// How many counts there are.
const COUNTS: usize = 18;

/// Counts over all files, in the order of their names.
#[derive(Clone, Copy, Debug, Default)]
pub struct Totals([u64; COUNTS]);

fn names() -> impl Iterator<Item = &'static str> {
    LINES.iter().flat_map(|(_, names)| names.iter().copied())
}

impl Totals {
    /// Totals that count only what can't be read or is repeated.
    pub fn of(files: &Files) -> Self {
        let mut totals = Totals::default();
        totals.add("repeated", files.repeated as u64);
        totals.add("unread", files.unread.len() as u64);
        totals
    }

    /// Counts a file and its sections.
    pub fn count(&mut self, answer: &Answer) {
        self.add("files", 1);
        self.add("unread", u64::from(answer.outcome == Outcome::Unread));
        answer.totals.iter().for_each(|(name, count)| self.add(name, *count));
    }

    /// Adds to the count with a name.
    pub fn add(&mut self, name: &str, count: u64) {
        if let Some((_, own)) = names().zip(&mut self.0).find(|(known, _)| *known == name) {
            *own = own.saturating_add(count);
        }
    }

    /// How the survey ended, for the exit status.
    pub fn done(&self) -> Done {
        let count = |wanted| self.named().find(|(name, _)| *name == wanted).map_or(0, |(_, count)| count);
        match (count("unread"), count("refused")) {
            (0, 0) => Done::Accepted,
            (0, _) => Done::Refused,
            _ => Done::Unread,
        }
    }

    /// Each count with its name, in the order in which they are written.
    pub fn named(&self) -> impl Iterator<Item = (&'static str, u64)> + '_ {
        names().zip(self.0)
    }

    /// Writes the totals: a line for files, a line for sections, and a line for what the sections
    /// hold. If `has_notes`, also a line of notes on frame sections.
    pub fn write(&self, out: &mut impl Write, has_notes: bool) -> io::Result<()> {
        let mut named = self.named();
        for (word, names) in LINES.iter().filter(|(word, _)| has_notes || word.is_empty()) {
            let counts: Vec<_> =
                named.by_ref().take(names.len()).map(|(name, count)| format!("{} {}", name, count)).collect();
            writeln!(out, "{}{}", word, counts.join(" "))?;
        }
        Ok(())
    }
}
