//! The difference of the tables of two programs, such as two builds of the same source code.

use super::tables::TableRows;
use super::{Function, Report};
use crate::cfi::frames::Name;
use crate::cfi::row::Row;
use crate::cfi::validate::RowSource;
use std::collections::HashMap;

/// How the functions of two reports differ. They are found by the names of their symbols in the file; if several have
/// the same name, the first one is compared with the first one, and so on. Addresses are relative to where a
/// function begins. All numbers are indexes of [`Report::functions`].
#[derive(Clone, Debug, Default, PartialEq, Eq)]
pub struct Difference {
    /// The functions that only the new program has.
    pub added: Vec<usize>,
    /// The functions that only the old program has.
    pub removed: Vec<usize>,
    /// The functions whose rows differ: their indexes in the old program and in the new one.
    pub changed: Vec<(usize, usize)>,
    /// The functions whose rows are equal, but for where the last one ends.
    pub resized: Vec<(usize, usize)>,
    /// How many functions are equal.
    pub same: usize,
    /// How many FDEs of the old and of the new program aren't compared, because they have no name.
    pub unnamed: (usize, usize),
}

/// What a function is found by: its section, its symbol, and the offset from there.
type Key<'a> = (Option<Name>, &'a str, u64);

impl Difference {
    /// Compares two reports. This takes time and memory in proportion to their rows.
    pub fn of(old: &Report<'_>, new: &Report<'_>) -> Self {
        let mut difference = Difference::default();
        let mut waiting: HashMap<Key<'_>, Vec<usize>> = HashMap::new();
        for (index, function) in new.functions.iter().enumerate().rev() {
            match comparison_key(new, function) {
                Some(key) => waiting.entry(key).or_default().push(index),
                None => difference.unnamed.1 += 1,
            }
        }
        for (index, function) in old.functions.iter().enumerate() {
            match comparison_key(old, function).map(|key| waiting.get_mut(&key).and_then(Vec::pop)) {
                Some(Some(other)) => difference.add(old, index, new, other),
                Some(None) => difference.removed.push(index),
                None => difference.unnamed.0 += 1,
            }
        }
        difference.added = waiting.into_values().flatten().collect();
        difference.added.sort_unstable();
        difference
    }

    /// Adds a function that both programs have.
    fn add(&mut self, old: &Report<'_>, index: usize, new: &Report<'_>, other: usize) {
        let (one, two) = (&old.functions[index], &new.functions[other]);
        if !have_equal_rows(old, one, new, two) {
            self.changed.push((index, other));
        } else if one.end - one.begin != two.end - two.begin {
            self.resized.push((index, other));
        } else {
            self.same += 1;
        }
    }

    /// The functions to show first, of the old program and of the new one.
    pub(super) fn interesting(&self) -> [Vec<usize>; 2] {
        let pairs = || self.changed.iter().chain(&self.resized);
        let old = pairs().map(|pair| pair.0).chain(self.removed.iter().copied());
        let new = pairs().map(|pair| pair.1).chain(self.added.iter().copied());
        [old.collect(), new.collect()]
    }
}

fn comparison_key<'a>(report: &Report<'_>, function: &'a Function) -> Option<Key<'a>> {
    Some((report.section_of(function), function.symbol.as_deref()?, function.offset))
}

/// Whether two functions have equal rows at equal distances from where they begin.
fn have_equal_rows(old: &Report<'_>, one: &Function, new: &Report<'_>, two: &Function) -> bool {
    if (one.rows, one.return_register) != (two.rows, two.return_register) {
        return false;
    }
    let (mut ours, mut theirs) = match (old.rows_of(one), new.rows_of(two)) {
        (Some(ours), Some(theirs)) => (ours, theirs),
        _ => return false,
    };
    let mut rows = (Row::default(), Row::default());
    for _ in 0..one.rows {
        if !next_is_equal(&mut ours, &mut theirs, &mut rows, (one.begin, two.begin)) {
            return false;
        }
    }
    true
}

fn next_is_equal(
    ours: &mut TableRows<'_>,
    theirs: &mut TableRows<'_>,
    (one, two): &mut (Row<'static>, Row<'static>),
    begins: (u64, u64),
) -> bool {
    let are_read = ours.next_row(one) == Ok(true) && theirs.next_row(two) == Ok(true);
    are_read && one.begin - begins.0 == two.begin - begins.1 && one.cfa == two.cfa && one.rules == two.rules
}
