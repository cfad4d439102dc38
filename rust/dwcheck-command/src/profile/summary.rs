//! The lines on standard error that say what of a recording was read, what wasn't, and why stacks ended.

use crate::arguments::{Format, ProfileArguments};
use crate::end::shown_path;
use dwcheck_elf::text::Escaped;
use dwcheck_profile::{End, Names, Profile};
use std::collections::BTreeMap;
use std::fmt::Write as _;
use std::io::{self, Write};
use std::path::Path;

/// The most lines about the same file.
const MOST_LINES: usize = 3;

/// Writes the summary of a recording.
pub fn write_summary(arguments: &ProfileArguments, path: &Path, profile: &Profile, names: &Names) {
    let mut text = String::new();
    add_problems(profile, names, &mut text);
    if !arguments.quiet {
        add_sample_counts(profile, &mut text);
    }
    if arguments.stops {
        add_stop_reasons(profile, &mut text);
    }
    add_hidden_events(arguments, profile, &mut text);
    if let Some(damage) = &profile.damage {
        let _ = writeln!(text, "dwcheck-elf: {}: {}", shown_path(path), damage);
    }
    if profile.samples.is_empty() {
        let _ = writeln!(text, "dwcheck-elf: {}: no samples", shown_path(path));
    }
    // If standard error is closed, nobody can read it.
    let _ = io::stderr().write_all(text.as_bytes());
}

/// What isn't used of files: the first lines of each, and how many more there are.
fn add_problems(profile: &Profile, names: &Names, text: &mut String) {
    let mut by_file: BTreeMap<&str, Vec<&str>> = BTreeMap::new();
    for (file, problem) in profile.problems.iter().chain(&names.problems) {
        by_file.entry(file).or_default().push(problem);
    }
    for (file, problems) in by_file {
        for problem in problems.iter().take(MOST_LINES) {
            let _ = writeln!(text, "dwcheck-elf: {}: {}", Escaped(file), Escaped(problem));
        }
        if problems.len() > MOST_LINES {
            let _ = writeln!(text, "dwcheck-elf: {}: {} more like this", Escaped(file), problems.len() - MOST_LINES);
        }
    }
}

fn add_sample_counts(profile: &Profile, text: &mut String) {
    let counts = &profile.counts;
    let _ = write!(text, "samples {} frames {}", profile.samples.len(), counts.frames);
    let _ = write!(text, " truncated {}", counts.truncated());
    let others = [
        ("lost", counts.lost),
        ("throttled", counts.throttled),
        ("by-frame-pointer", counts.by_frame_pointer),
        ("cut-traces", counts.cut_traces),
        ("short-records", counts.short),
    ];
    for (name, count) in others.into_iter().filter(|(_, count)| *count > 0) {
        let _ = write!(text, " {} {}", name, count);
    }
    text.push('\n');
}

/// How many stacks ended for each reason.
fn add_stop_reasons(profile: &Profile, text: &mut String) {
    for end in End::ALL {
        if let Some(count) = profile.counts.ends.get(&end) {
            let _ = writeln!(text, "stop {}: {}", end, count);
        }
    }
}

/// Which events aren't shown.
fn add_hidden_events(arguments: &ProfileArguments, profile: &Profile, text: &mut String) {
    let sampled = profile.sampled_events();
    let has_all = match arguments.format {
        Format::Script | Format::Pprof => true,
        Format::Html => arguments.compare.is_none(),
        _ => false,
    };
    if has_all || sampled.len() < 2 {
        return;
    }
    let mut names = sampled.iter().map(|event| profile.event_name(*event));
    let first = names.next().unwrap_or("");
    let others: Vec<_> = names.map(|name| Escaped(name).to_string()).collect();
    let _ = writeln!(text, "dwcheck-elf: shown is {}; give --event for {}", Escaped(first), others.join(", "));
}
