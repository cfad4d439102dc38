//! Reads random cases with dwcheck's libraries and with gimli, and compares the results.
//!
//! If dwcheck accepts a case, gimli must be able to read it, with the same result. If dwcheck
//! refuses a case that gimli reads, that isn't counted as a difference, because gimli checks
//! little.

use crate::cases::{Case, Frames, Lists, made_expression};
use crate::limits;
use crate::meaning::{self, Kind};
use crate::ours;
use crate::random::Random;
use crate::target::{TARGETS, Target};
use std::collections::BTreeMap;

/// The results for cases of one kind.
#[derive(Default)]
struct Counts {
    cases: u64,
    accepted: u64,
    accepted_changed: u64,
    /// For each fault number: how many cases dwcheck refused, and how many of these gimli reads.
    refused: BTreeMap<u64, (u64, u64)>,
    differences: u64,
    /// How many expressions have different results that aren't counted as differences, because
    /// gimli may shift by a greater count than dwcheck (see `may_shift_further`).
    shifts: u64,
}

impl Counts {
    fn add(&mut self, what: &str, case: &Case, target: Target, changed: bool, ours: u64, theirs: Result<u64, gimli::Error>) {
        self.cases += 1;
        if ours >> 63 == 0 {
            let count = self.refused.entry(ours).or_default();
            count.0 += 1;
            count.1 += u64::from(theirs.is_ok());
            return;
        }
        self.accepted += 1;
        self.accepted_changed += u64::from(changed);
        if theirs != Ok(ours) {
            if what == "expressions" && theirs.is_ok() && meaning::may_shift_further(&case.bytes, target) {
                self.shifts += 1;
                return;
            }
            self.differences += 1;
            if self.differences <= 20 {
                let bytes: String = case.bytes.iter().map(|byte| format!("{byte:02x}")).collect();
                println!("difference: {what} {target:?} gimli {theirs:?}\n{bytes}");
            }
        }
    }

    fn print(&self, what: &str) {
        println!(
            "{what}: {} cases, {} accepted, {} of them changed, {} differences, {} more by shifts",
            self.cases, self.accepted, self.accepted_changed, self.differences, self.shifts
        );
        for (number, (refused, read)) in &self.refused {
            println!("{what}: fault {number}: {refused} refused, of which gimli reads {read}");
        }
    }
}

/// Makes a random frame section, and compares what both read. If dwcheck accepts it, the rows in
/// its compiled table are compared with gimli's too.
fn frame_case(frames: &Frames, random: &mut Random, target: Target, counts: &mut Counts, tables: &mut Counts) {
    let mut case = frames.case(random, target);
    let changed = case.change(random);
    let ours = ours::frame_answer(&case.bytes, target.big, target.small);
    counts.add("frames", &case, target, changed, ours, meaning::frame_answer(&case.bytes, target));
    if ours >> 63 == 1 {
        table_case(&case, random, target, changed, tables);
    }
}

/// Compares the rows in the compiled table of an accepted section with gimli's rows: at both ends
/// of each FDE, inside each FDE, and at some other addresses.
fn table_case(case: &Case, random: &mut Random, target: Target, changed: bool, counts: &mut Counts) {
    let read = meaning::Rows::read(&case.bytes, target);
    let mut addresses = vec![0, random.next() & target.greatest(), target.greatest()];
    if let Ok(rows) = &read {
        addresses.extend(rows.addresses(random));
    }
    let ours = ours::table_answer(&case.bytes, target.big, target.small, &addresses);
    counts.add("tables", case, target, changed, ours, read.and_then(|rows| rows.answer(&addresses)));
}

fn lists_case(lists: &Lists, random: &mut Random, target: Target, counts: &mut Counts) {
    let mut case = lists.case(random, target);
    let changed = case.change(random);
    let base = *random.of(&[0, 0x1000, 0x40_0000, target.greatest() - 0x100]);
    let read = meaning::Lists::read(&case.bytes, target);
    let mut addresses = vec![random.next() & target.greatest(), base];
    if let Ok(lists) = &read {
        let bounds = lists.bounds(base);
        if !bounds.is_empty() {
            addresses.extend((0..4).map(|_| *random.of(&bounds)));
        }
    }
    let ours = ours::lists_answer(&case.bytes, target.big, target.small, base, &addresses);
    counts.add("lists", &case, target, changed, ours, read.and_then(|lists| lists.answer(base, &addresses)));
}

fn expression_case(lists: &Lists, random: &mut Random, target: Target, counts: &mut Counts) {
    let bytes = match random.below(6) {
        0 | 1 => lists.expression(random, target),
        2 => limits::expression(random, target),
        _ => made_expression(random, target),
    };
    let mut case = Case::of(bytes);
    let changed = case.change(random);
    let location = !random.one_of(3);
    let kind = if location { Kind::Location } else { Kind::Register };
    let ours = ours::expression_answer(&case.bytes, target.big, target.small, location);
    counts.add("expressions", &case, target, changed, ours, meaning::expression_answer(&case.bytes, kind, target));
}

/// Compares the given numbers of random frame sections, sections of lists, and expressions. The
/// cases of each kind take the four targets in turn. Returns whether there is no difference.
pub fn run(sections: &[(String, Vec<u8>)], frame_count: u64, list_count: u64, expression_count: u64, seed: u64) -> bool {
    let (mut frames, mut lists) = (Frames::default(), Lists::default());
    for (name, section) in sections {
        if name.ends_with(".lists") {
            lists.add(section);
        } else {
            frames.add(section);
        }
    }
    let mut random = Random::new(seed);
    let mut counts: [Counts; 3] = Default::default();
    let mut tables = Counts::default();
    for (_, section) in sections.iter().filter(|(name, _)| !name.ends_with(".lists")) {
        table_case(&Case::of(section.clone()), &mut random, TARGETS[0], false, &mut tables);
    }
    for number in 0..frame_count {
        frame_case(&frames, &mut random, TARGETS[number as usize % 4], &mut counts[0], &mut tables);
    }
    for number in 0..list_count {
        lists_case(&lists, &mut random, TARGETS[number as usize % 4], &mut counts[1]);
    }
    for number in 0..expression_count {
        expression_case(&lists, &mut random, TARGETS[number as usize % 4], &mut counts[2]);
    }
    for (what, counts) in ["frames", "lists", "expressions"].iter().zip(&counts) {
        counts.print(what);
    }
    tables.print("tables");
    counts.iter().all(|counts| counts.differences == 0) && tables.differences == 0
}
