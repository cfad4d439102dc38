//! Writes folded stacks, which flamegraph.pl, inferno and speedscope read: a line for each stack, with the thread's
//! name and the functions, the outermost first, and what it weighs.

use super::calls::{Called, Calls};
use super::compared::{Side, SIDES};
use super::frame_names::Names;
use super::Profile;
use rayon::prelude::*;
use rustc_hash::FxHashMap;
use std::collections::BTreeMap;
use std::io::{self, Write};

/// Writes the stacks of an event.
///
/// # Errors
///
/// Those of `out`.
pub fn write_folded(profile: &Profile, names: &Names, event: usize, out: &mut impl Write) -> io::Result<()> {
    let lines = folded_stacks(profile, names, event, Threads::Named);
    lines.into_iter().try_for_each(|(line, weight)| writeln!(out, "{} {}", line, weight))
}

/// Writes the stacks of an old profile and of a new one with what they weigh in both, as flamegraph.pl takes them. The
/// names of threads are left out: two builds of a program may have two names, and their stacks are to be compared.
///
/// # Errors
///
/// Those of `out`.
pub fn write_folded_compared(old: Side<'_>, new: Side<'_>, out: &mut impl Write) -> io::Result<()> {
    let mut both: BTreeMap<String, [u64; SIDES]> = BTreeMap::new();
    for (index, side) in [old, new].into_iter().enumerate() {
        for (line, weight) in folded_stacks(side.profile, side.names, side.event, Threads::LeftOut) {
            both.entry(line).or_default()[index] = weight;
        }
    }
    both.into_iter().try_for_each(|(line, [old, new])| writeln!(out, "{} {} {}", line, old, new))
}

/// Whether lines begin with the names of threads.
#[derive(Clone, Copy, Debug, PartialEq, Eq)]
enum Threads {
    Named,
    LeftOut,
}

/// The stacks of an event with what they weigh, in the order of their texts.
fn folded_stacks(profile: &Profile, names: &Names, event: usize, threads: Threads) -> Vec<(String, u64)> {
    let calls = Calls::of(profile, names);
    let mut weights: FxHashMap<(u32, u32), u64> = FxHashMap::default();
    for sample in profile.samples_of(event) {
        let weight = weights.entry((sample.comm, calls.of_stack(sample.stack))).or_default();
        *weight = weight.saturating_add(sample.weight);
    }
    let stacks: Vec<_> = weights.into_iter().collect();
    let texts = Texts::of(profile, names, &calls);
    let line = |((comm, node), weight): &((u32, u32), u64)| {
        let line = texts.line(&calls, *comm, *node);
        match threads {
            Threads::Named => (line, *weight),
            Threads::LeftOut => (texts.without_thread(&line, *comm), *weight),
        }
    };
    let mut lines: Vec<(String, u64)> = stacks.par_iter().map(line).collect();
    lines.par_sort_unstable();
    // Functions of the same name, in several objects, are one.
    lines.dedup_by(|(line, weight), (before, sum)| {
        let is_same = line == before;
        *sum = sum.saturating_add(if is_same { *weight } else { 0 });
        is_same
    });
    lines
}

/// What lines are made of, each text once.
struct Texts {
    comms: Vec<String>,
    /// For each function its text, with a semicolon in front.
    functions: Vec<String>,
}

impl Texts {
    fn of(profile: &Profile, names: &Names, calls: &Calls) -> Texts {
        Texts {
            comms: profile.comms.iter().map(|comm| folded_name(comm)).collect(),
            functions: calls.functions.iter().map(|called| folded_text(names, called)).collect(),
        }
    }

    /// The line of a stack, without its weight.
    fn line(&self, calls: &Calls, comm: u32, node: u32) -> String {
        let text = |function: u32| self.functions.get(function as usize).map_or("", String::as_str);
        let mut parts: Vec<&str> = calls.functions_of(node).map(text).collect();
        parts.push(self.comms.get(comm as usize).map_or("", String::as_str));
        parts.reverse();
        parts.concat()
    }

    /// A line without the thread's name and the semicolon after it, or `?` if the sample has no functions.
    fn without_thread(&self, line: &str, comm: u32) -> String {
        let name = self.comms.get(comm as usize).map_or(0, String::len);
        let functions = line.get(name..).and_then(|rest| rest.strip_prefix(';'));
        functions.unwrap_or("?").to_string()
    }
}

/// The text of a function, with a semicolon in front.
fn folded_text(names: &Names, called: &Called) -> String {
    format!(";{}", folded_name(&called.shown(names)))
}

/// A name without what separates names and lines.
fn folded_name(name: &str) -> String {
    let shown = name.chars().filter(|c| !c.is_control());
    shown.map(|c| if c == ';' { ':' } else { c }).collect()
}
