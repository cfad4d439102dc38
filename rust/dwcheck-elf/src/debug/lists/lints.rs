//! Counts entries that break no rule, but that are most likely mistakes.

use super::around::Around;
use super::unit::{Entry, List, UnitLists};
use crate::debug::expression::operations;
use dwcheck_types::codes::op;
use dwcheck_types::target::Target;
use std::collections::BTreeMap;
use std::fmt;
use std::ops::Range;

/// Why an entry is most likely a mistake.
#[derive(Clone, Copy, Debug, PartialEq, Eq, PartialOrd, Ord, Hash)]
pub enum Lint {
    /// It shares addresses with an earlier entry of the list, and has another expression.
    Overlapping,
    /// It has no address: its range ends where it begins. gcc writes such entries between two view numbers of
    /// one address.
    Empty,
    /// The linker dropped its function.
    Dropped,
    /// It has addresses outside of its unit.
    Outside,
    /// It has addresses outside of its function, but in its unit.
    OutsideFunction,
    /// It has addresses outside of its block or inlined function, but in its function.
    OutsideBlock,
    /// Its expression has no result in any state: it needs the frame base of a function that has none, or the
    /// address of an object, which variables don't have.
    Unreadable,
    /// `DW_OP_form_tls_address` comes before its operand, as gcc writes it, even if it finds an entry.
    TlsOrder,
}

/// How many entries are most likely mistakes, by the reason.
#[derive(Clone, Debug, Default, PartialEq, Eq)]
pub struct Lints(BTreeMap<Lint, usize>);

/// What entries are compared with.
pub(crate) struct Surroundings<'s> {
    /// The section that has the lists.
    pub section: &'s [u8],
    /// The addresses of the unit, ascending.
    pub unit: &'s [Range<u64>],
    /// The functions and blocks around the variables.
    pub around: &'s [Around],
    /// Addresses below this one are none of the program's code.
    pub lowest: u64,
    /// The byte order and the address size.
    pub target: Target,
}

impl Lints {
    /// How many entries there are for a reason.
    pub fn count(&self, lint: Lint) -> usize {
        self.0.get(&lint).copied().unwrap_or(0)
    }

    /// Each reason with the number of entries.
    pub fn all(&self) -> impl Iterator<Item = (Lint, usize)> + '_ {
        Lint::ALL.into_iter().map(|lint| (lint, self.count(lint)))
    }

    /// Counts the entries of a unit's lists, and calls `note` with each that is most likely a mistake.
    pub(crate) fn add(
        &mut self,
        lists: &UnitLists,
        surroundings: &Surroundings<'_>,
        mut note: impl FnMut(Lint, &List, &Entry),
    ) {
        for list in &lists.lists {
            let mut found = |lint: Lint, entry: &Entry| {
                *self.0.entry(lint).or_default() += 1;
                note(lint, list, entry);
            };
            let entries = lists.entries_of(list);
            surroundings.overlapping(entries).into_iter().for_each(|entry| found(Lint::Overlapping, entry));
            let around = list.reference.around.and_then(|place| surroundings.around.get(place));
            for entry in entries {
                surroundings.lints(entry, around).into_iter().flatten().for_each(|lint| found(lint, entry));
            }
        }
    }
}

impl Lint {
    /// All of them.
    pub const ALL: [Lint; 8] = [
        Lint::Overlapping,
        Lint::Empty,
        Lint::Dropped,
        Lint::Outside,
        Lint::OutsideFunction,
        Lint::OutsideBlock,
        Lint::Unreadable,
        Lint::TlsOrder,
    ];
}

impl fmt::Display for Lint {
    fn fmt(&self, f: &mut fmt::Formatter<'_>) -> fmt::Result {
        f.write_str(match self {
            Lint::Overlapping => "overlapping",
            Lint::Empty => "empty",
            Lint::Dropped => "dropped",
            Lint::Outside => "outside",
            Lint::OutsideFunction => "outside-function",
            Lint::OutsideBlock => "outside-block",
            Lint::Unreadable => "unreadable",
            Lint::TlsOrder => "tls-order",
        })
    }
}

impl Surroundings<'_> {
    fn expression(&self, entry: &Entry) -> &[u8] {
        self.section.get(entry.original.clone()).unwrap_or(&[])
    }

    /// The entries of a list that share addresses with one that begins earlier and has another expression.
    fn overlapping<'e>(&self, entries: &'e [Entry]) -> Vec<&'e Entry> {
        let range = |entry: &Entry| entry.range.clone().filter(|range| range.start < range.end);
        let mut ranges: Vec<_> = entries.iter().filter_map(|entry| Some((range(entry)?, entry))).collect();
        ranges.sort_by_key(|(range, _)| range.start);
        let mut found = Vec::new();
        let mut last: Option<(u64, &Entry)> = None;
        for (range, entry) in ranges {
            match last {
                Some((end, other)) if range.start < end && self.expression(other) != self.expression(entry) => {
                    found.push(entry);
                }
                _ => {}
            }
            last = last.filter(|(end, _)| *end > range.end).or(Some((range.end, entry)));
        }
        found
    }

    /// What is doubtful of an entry by itself: its expression, and its range.
    fn lints(&self, entry: &Entry, around: Option<&Around>) -> [Option<Lint>; 3] {
        let expression = self.expression(entry);
        let tls_order = has_tls_before_operand(expression, self.target).then_some(Lint::TlsOrder);
        let has_frame_base = around.map_or(true, |around| around.has_frame_base);
        let unreadable = is_unreadable(expression, has_frame_base, self.target).then_some(Lint::Unreadable);
        [tls_order, unreadable, entry.range.as_ref().and_then(|range| self.of_range(entry, range, around))]
    }

    fn of_range(&self, entry: &Entry, range: &Range<u64>, around: Option<&Around>) -> Option<Lint> {
        if entry.is_dropped || range.start < self.lowest {
            return Some(Lint::Dropped);
        }
        if range.start == range.end {
            return Some(Lint::Empty);
        }
        let is_outside = |ranges: &[Range<u64>]| !ranges.is_empty() && !has_whole_range(ranges, range);
        match around {
            _ if range.start > range.end => None,
            _ if is_outside(self.unit) => Some(Lint::Outside),
            Some(around) if is_outside(&around.function) => Some(Lint::OutsideFunction),
            Some(around) if is_outside(&around.block) => Some(Lint::OutsideBlock),
            _ => None,
        }
    }
}

/// Whether one of these ranges, which are ascending, has all addresses of another one.
fn has_whole_range(ranges: &[Range<u64>], range: &Range<u64>) -> bool {
    let before = ranges.partition_point(|part| part.start <= range.start).checked_sub(1);
    before.map_or(false, |part| range.end <= ranges[part].end)
}

fn is_unreadable(expression: &[u8], has_frame_base: bool, target: Target) -> bool {
    let never = |code: u8| code == op::PUSH_OBJECT_ADDRESS || code == op::FBREG && !has_frame_base;
    // Few expressions have such a byte at all.
    expression.iter().any(|byte| never(*byte)) && operations(expression, target).iter().any(|one| never(one.code))
}

const FORM_TLS_ADDRESS: [u8; 2] = [op::FORM_TLS_ADDRESS, op::GNU_PUSH_TLS_ADDRESS];

/// The constants that gcc writes as the operand of `DW_OP_form_tls_address`: const4u, const8u.
const CONSTANTS: [u8; 2] = [op::CONST4U, op::CONST8U];

fn has_tls_before_operand(expression: &[u8], target: Target) -> bool {
    // Nearly all expressions are shorter than both operations.
    if expression.len() < 6 || !expression.iter().any(|byte| FORM_TLS_ADDRESS.contains(byte)) {
        return false;
    }
    // `operations` ends at the first operation outside of the profile, which is then this one.
    match operations(expression, target).last() {
        Some(last) if FORM_TLS_ADDRESS.contains(&last.code) => {
            expression.get(last.offset + 1).map_or(false, |next| CONSTANTS.contains(next))
        }
        _ => false,
    }
}
