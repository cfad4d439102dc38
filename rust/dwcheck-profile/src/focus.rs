//! What a profile says of one function: the stacks that have it, its callers, and what it calls.

use super::calls::{Calls, Weight};
use super::frame_names::Names;
use super::tree::Tree;
use super::Profile;
use dwcheck_elf::text::Escaped;
use rustc_hash::FxHashMap;
use std::cmp::Reverse;
use std::collections::HashSet;
use std::io::{self, Write};

/// A function of a profile, by its name. Functions of several objects may have the same name.
#[derive(Debug)]
pub struct Focus {
    calls: Calls,
    /// For each function of the profile whether it has the name.
    is_wanted: Vec<bool>,
}

/// The weights of functions beside the one that is wanted. `None` is for none.
type Beside = FxHashMap<Option<u32>, u64>;

impl Focus {
    /// The functions with a name: as it is shown, or without its parameters. `None` if no stack has one.
    pub fn of(profile: &Profile, names: &Names, name: &str) -> Option<Focus> {
        let calls = Calls::of(profile, names);
        let is_wanted: Vec<bool> =
            calls.functions.iter().map(|called| is_named(names.text(called.name), name)).collect();
        is_wanted.contains(&true).then_some(Focus { calls, is_wanted })
    }

    /// Leaves out the samples whose stacks don't have the function.
    pub fn keep(&self, profile: &mut Profile) {
        let mut has = vec![false; self.calls.nodes.len()];
        for (node, call) in self.calls.nodes.iter().enumerate().skip(1) {
            has[node] = has[call.caller as usize] || self.is_wanted[call.function as usize];
        }
        profile.samples.retain(|sample| has[self.calls.of_stack(sample.stack) as usize]);
    }

    /// Writes what the function weighs in the samples of an event, then its callers and what it calls, at most `limit` of
    /// each, those that weigh most first. A caller weighs what the stacks weigh in which it calls the function.
    ///
    /// # Errors
    ///
    /// Those of `out`.
    pub fn write(
        &self,
        profile: &Profile,
        names: &Names,
        event: usize,
        limit: usize,
        out: &mut impl Write,
    ) -> io::Result<()> {
        let all = profile.samples_of(event).fold(0u64, |sum, sample| sum.saturating_add(sample.weight));
        let percent = |part: u64| part as f64 * 100.0 / all.max(1) as f64;
        writeln!(out, "   self   total  {} {}", Escaped(profile.event_name(event)), all)?;
        let weights = self.calls.weights(profile, event);
        let wanted = weights.iter().enumerate().filter(|(function, _)| self.is_wanted[*function]);
        for (function, Weight { own, total }) in wanted.filter(|(_, weight)| weight.total > 0) {
            let shown = self.shown(Some(function as u32), names);
            writeln!(out, "{:6.2}% {:6.2}%  {}", percent(*own), percent(*total), shown)?;
        }
        for (title, beside) in ["callers", "calls"].into_iter().zip(self.beside(profile, event)) {
            writeln!(out, "{}", title)?;
            let mut rows: Vec<_> =
                beside.into_iter().map(|(function, weight)| (self.shown(function, names), weight)).collect();
            rows.sort_by(|one, other| (Reverse(one.1), &one.0).cmp(&(Reverse(other.1), &other.0)));
            rows.iter()
                .take(limit)
                .try_for_each(|(shown, weight)| writeln!(out, "        {:6.2}%  {}", percent(*weight), shown))?;
        }
        Ok(())
    }

    fn shown(&self, function: Option<u32>, names: &Names) -> String {
        match function.and_then(|function| self.calls.functions.get(function as usize)) {
            Some(called) => {
                let object = names.text(called.object).rsplit('/').next().unwrap_or("");
                format!("{} ({})", called.shown(names), object)
            }
            None => "none".to_string(),
        }
    }

    /// The callers, and what is called.
    fn beside(&self, profile: &Profile, event: usize) -> [Beside; 2] {
        let mut weights: FxHashMap<u32, u64> = FxHashMap::default();
        for sample in profile.samples_of(event) {
            let weight = weights.entry(self.calls.of_stack(sample.stack)).or_default();
            *weight = weight.saturating_add(sample.weight);
        }
        let mut beside = [Beside::default(), Beside::default()];
        for (node, weight) in weights.into_iter().filter(|(node, _)| *node != Tree::ROOT) {
            for (found, side) in self.beside_in_stack(node).into_iter().zip(&mut beside) {
                for function in found {
                    let sum = side.entry(function).or_default();
                    *sum = sum.saturating_add(weight);
                }
            }
        }
        beside
    }

    /// The same of one stack.
    fn beside_in_stack(&self, node: u32) -> [HashSet<Option<u32>>; 2] {
        let mut found = [HashSet::new(), HashSet::new()];
        let mut called = None;
        let mut functions = self.calls.functions_of(node).peekable();
        while let Some(function) = functions.next() {
            if self.is_wanted[function as usize] {
                found[0].insert(functions.peek().copied());
                found[1].insert(called);
            }
            called = Some(function);
        }
        found
    }
}

/// Whether a function has a name, which may leave out its parameters.
fn is_named(function: &str, name: &str) -> bool {
    function.strip_prefix(name).map_or(false, |rest| rest.is_empty() || rest.starts_with('('))
}
