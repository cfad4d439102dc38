//! Writes a table of functions: what each weighs by itself, and with all that it calls.

use super::calls::{Calls, Weight};
use super::compared::{Compared, SIDES};
use super::frame_names::Names;
use super::Profile;
use dwcheck_elf::text::Escaped;
use std::cmp::Reverse;
use std::io::{self, Write};

/// Writes the functions of an event, those that weigh most by themselves first, at most `limit` of them. If lines are
/// shown, each line of a function has a row of its own.
///
/// # Errors
///
/// Those of `out`.
pub fn write_top(profile: &Profile, names: &Names, event: usize, limit: usize, out: &mut impl Write) -> io::Result<()> {
    let calls = Calls::of(profile, names);
    let weights = calls.weights(profile, event);
    let all = profile.samples_of(event).fold(0u64, |sum, sample| sum.saturating_add(sample.weight));
    let mut functions: Vec<_> = calls.functions.iter().zip(weights).collect();
    functions.sort_by_cached_key(|(called, weight)| {
        (Reverse((weight.own, weight.total)), called.shown(names), called.object)
    });
    let percent = |part: u64| part as f64 * 100.0 / all.max(1) as f64;
    writeln!(out, "   self   total  {} {}", Escaped(profile.event_name(event)), all)?;
    for (called, weight) in functions.into_iter().take(limit).filter(|(_, weight)| weight.total > 0) {
        let object = names.text(called.object).rsplit('/').next().unwrap_or("");
        let (own, total) = (percent(weight.own), percent(weight.total));
        writeln!(out, "{:6.2}% {:6.2}%  {} ({})", own, total, called.shown(names), object)?;
    }
    Ok(())
}

/// Writes the functions of two profiles with their shares in both, those first whose shares by themselves differ most,
/// at most `limit` of them.
///
/// # Errors
///
/// Those of `out`.
pub fn write_top_compared(compared: &Compared, event: &str, limit: usize, out: &mut impl Write) -> io::Result<()> {
    let [old, new] = compared.all();
    let share = |weights: &[Weight; SIDES], part: fn(&Weight) -> u64| {
        [(0, old), (1, new)].map(|(side, all)| part(&weights[side]) as f64 * 100.0 / all.max(1) as f64)
    };
    let mut functions: Vec<_> = compared.functions.iter().zip(compared.weights()).collect();
    functions.sort_by(|(one, weights), (other, others)| {
        let change = |weights: &[Weight; SIDES], part| {
            let [old, new] = share(weights, part);
            (new - old).abs()
        };
        let by = |part: fn(&Weight) -> u64| change(others, part).total_cmp(&change(weights, part));
        let by_name = || (&one.name, &one.object).cmp(&(&other.name, &other.object));
        by(|weight| weight.own).then_with(|| by(|weight| weight.total)).then_with(by_name)
    });
    writeln!(out, "   self     new   change   total     new   change  {} {} {}", Escaped(event), old, new)?;
    let is_there = |weights: &[Weight; SIDES]| weights.iter().any(|weight| weight.total > 0);
    for (function, weights) in functions.into_iter().filter(|(_, weights)| is_there(weights)).take(limit) {
        for [old, new] in [share(&weights, |weight| weight.own), share(&weights, |weight| weight.total)] {
            write!(out, "{:6.2}% {:6.2}% {:+7.2}% ", old, new, new - old)?;
        }
        writeln!(out, " {} ({})", function.name, function.object)?;
    }
    Ok(())
}
