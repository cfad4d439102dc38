//! What the location lists of a section have, counted.

use super::coverage::Bytes;
use super::lints::{Lint, Lints};
use super::problem::Limit;
use super::unsupported::Unsupported;
use crate::cfi::defect::Defect;
use crate::elf::escaped::Escaped;
use std::collections::BTreeMap;
use std::fmt;
use std::ops::Range;

/// What the location lists of a section have.
#[derive(Clone, Debug, Default, PartialEq, Eq)]
pub struct Contents {
    /// The units of `.debug_info` that refer to lists.
    pub units: usize,
    /// The lists.
    pub lists: usize,
    /// Their entries that have an expression.
    pub entries: usize,
    /// The entries with operations that `dwcheck` doesn't know, which are unreadable in every state.
    pub with_unsupported: usize,
    /// How many entries have an operation of each of these kinds.
    pub all_unsupported: BTreeMap<Unsupported, usize>,
    /// The bytes of the section.
    pub bytes: Bytes,
    /// Entries that are most likely mistakes.
    pub lints: Lints,
    /// Lists that weren't compared with gimli's to their end, because gimli doesn't read them.
    pub not_compared: usize,
    /// How many entries pass each limit of `dwcheck`, so that their expressions aren't checked.
    pub limits: BTreeMap<Limit, usize>,
    /// These entries, if all faults were asked for.
    pub unchecked: Vec<Defect>,
    /// The entries that `lints` counts, if they were asked for.
    pub doubtful: Vec<Doubtful>,
}

/// An entry that is most likely a mistake.
#[derive(Clone, Debug, PartialEq, Eq)]
pub struct Doubtful {
    /// Why.
    pub lint: Lint,
    /// The offset of the entry in the section.
    pub entry: u64,
    /// The offset of its list.
    pub list: u64,
    /// The addresses at which it applies. `None` if it applies where no other entry does.
    pub range: Option<Range<u64>>,
    /// The variable of the list, in words. `None` if it has no name.
    pub variable: Option<String>,
}

impl fmt::Display for Doubtful {
    fn fmt(&self, f: &mut fmt::Formatter<'_>) -> fmt::Result {
        write!(f, "+{:#x}: doubtful: {}, ", self.entry, self.lint)?;
        if let Some(range) = &self.range {
            write!(f, "{:#x}..{:#x}, ", range.start, range.end)?;
        }
        write!(f, "list {:#x}", self.list)?;
        self.variable.as_ref().map_or(Ok(()), |variable| write!(f, " ({})", Escaped(variable)))
    }
}

impl Contents {
    /// What of the section isn't checked, in words: `3 backward branches`. `None` if all is checked.
    pub fn not_checked(&self) -> Option<String> {
        let whole = self
            .all_unsupported
            .iter()
            .filter(|(unsupported, _)| unsupported.is_whole())
            .map(|(unsupported, count)| (unsupported.to_string(), *count));
        let limits = self.limits.iter().map(|(limit, count)| (limit.to_string(), *count));
        let all: Vec<_> = limits.chain(whole).map(|(what, count)| format!("{} {}", count, what)).collect();
        Some(all.join(", ")).filter(|text| !text.is_empty())
    }
}
