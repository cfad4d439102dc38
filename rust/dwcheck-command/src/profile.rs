//! The command `profile`: writes the stacks that perf recorded.

mod compare;
mod summary;

use crate::arguments::{Format, ProfileArguments};
use crate::debuginfod::{fetcher, note_problems};
use crate::end::{shown_path, Done, Failure};
use crate::output::{check_output_apart, Output};
use crate::pool::start_threads;
use dwcheck_elf::fetch::Fetcher;
use dwcheck_elf::text::Escaped;
use dwcheck_profile::focus::Focus;
use dwcheck_profile::script::ScriptOptions;
use dwcheck_profile::{firefox, folded, html, pprof, script, speedscope, top};
use dwcheck_profile::{Damage, Event, NameOptions, Names, Options, Profile, Recording, SearchPaths};
use indicatif::{ProgressBar, ProgressStyle};
use std::fs::File;
use std::io::Write;
use std::ops::RangeInclusive;
use std::path::{Path, PathBuf};

/// Writes the profile of a recording on `out` or to a file, and a summary on standard error.
pub fn profile(arguments: &ProfileArguments, out: &mut impl Write) -> Result<Done, Failure> {
    if let Some(output) = &arguments.output {
        check_output_apart(
            output,
            [&arguments.kallsyms, &arguments.compare]
                .into_iter()
                .flatten()
                .map(PathBuf::as_path)
                .chain([path_of_recording(&arguments.recording)]),
        )?;
    }
    compare::check_format(arguments)?;
    start_threads(arguments.jobs)?;
    let fetcher = fetcher(arguments.debuginfod);
    let old = arguments.compare.as_deref().map(|path| read_recording(arguments, path, &fetcher)).transpose()?;
    let mut new = read_recording(arguments, &arguments.recording, &fetcher)?;
    note_problems(&fetcher);
    let focus = arguments.focus.as_deref().map(|name| focus_on(name, arguments, &mut new)).transpose()?;
    let write = |out: &mut dyn Write| match (&old, &focus) {
        (Some(old), _) => compare::write_compared(arguments, old, &new, out),
        (None, Some(focus)) if arguments.format == Format::Top => {
            let event = new.0.sampled_events().first().copied().unwrap_or(0);
            Ok(focus.write(&new.0, &new.1, event, arguments.rows, &mut { out })?)
        }
        _ => write_profile(arguments, &new.0, &new.1, out),
    };
    match &arguments.output {
        None => write(out)?,
        Some(path) => {
            let mut output = Output::create(path)?;
            write(output.writer())?;
            output.finish()?;
        }
    }
    out.flush()?;
    let paths = arguments.compare.iter().chain([&arguments.recording]);
    let mut done = Done::Accepted;
    for (path, (profile, names)) in paths.zip(old.iter().chain([&new])) {
        summary::write_summary(arguments, path, profile, names);
        done = if profile.damage.is_some() { Done::Unread } else { done };
    }
    // The program ends now. To free each table and each text before that would only take time.
    std::mem::forget((old, new));
    Ok(done)
}

/// Reads a recording.
fn read_recording(arguments: &ProfileArguments, path: &Path, fetcher: &Fetcher) -> Result<(Profile, Names), Failure> {
    let options = profile_options(arguments, fetcher)?;
    let kernel = arguments.kallsyms.clone();
    if let Some(path) = &kernel {
        File::open(path).map_err(|error| Failure::reading(path, &error))?;
    }
    let mut recording = open_recording(path)?;
    check_event_name(arguments, path, recording.about().events())?;
    let bar = progress_of_recording(recording.size());
    // This runs in one of the threads, which have stacks of the size that is asked for.
    let (profile, names) = rayon::scope(|_| {
        let mut profile = Profile::read(&mut recording, &options, |position| {
            bar.set_position(position);
            true
        });
        bar.finish_and_clear();
        profile.add_tail_calls();
        let names =
            Names::read(&profile, &NameOptions { inlined: !arguments.no_inline, lines: arguments.lines, kernel });
        (profile, names)
    });
    check_event_name(arguments, path, &profile.events)?;
    Ok((profile, names))
}

/// The function that is asked for. But for --format top, samples without it are left out.
fn focus_on(
    name: &str,
    arguments: &ProfileArguments,
    (profile, names): &mut (Profile, Names),
) -> Result<Focus, Failure> {
    let focus = Focus::of(profile, names, name);
    let focus = focus.ok_or_else(|| {
        Failure::Argument(format!("bad argument: --focus {}: no stack has this function", Escaped(name)))
    })?;
    if arguments.format != Format::Top {
        focus.keep(profile);
    }
    Ok(focus)
}

/// Refuses an event that wasn't recorded. A recording that comes through a pipe has no events until it is read.
fn check_event_name(arguments: &ProfileArguments, path: &Path, events: &[Event]) -> Result<(), Failure> {
    let name = match arguments.event.as_ref() {
        Some(name) if !events.is_empty() && events.iter().all(|event| event.name != *name) => name,
        _ => return Ok(()),
    };
    let mut known: Vec<_> = events.iter().map(|event| Escaped(&event.name).to_string()).collect();
    known.dedup();
    let (name, recording, known) = (Escaped(name), shown_path(path), known.join(", "));
    Err(Failure::Argument(format!("bad argument: --event {}: {} has no such event; it has {}", name, recording, known)))
}

fn write_profile(
    arguments: &ProfileArguments,
    profile: &Profile,
    names: &Names,
    mut out: &mut dyn Write,
) -> Result<(), Failure> {
    let (events, out) = (profile.sampled_events(), &mut out);
    let event = events.first().copied().unwrap_or(0);
    match arguments.format {
        Format::Folded => folded::write_folded(profile, names, event, out)?,
        Format::Script => script::write_script(profile, names, ScriptOptions { stops: arguments.stops }, out)?,
        Format::Html => {
            let (only, title) = ([event], profile_title(arguments, profile));
            html::write_html(profile, names, if events.is_empty() { &only } else { &events }, &title, out)?
        }
        Format::Speedscope => speedscope::write_speedscope(profile, names, event, out)?,
        Format::Pprof => pprof::write_pprof(profile, names, out)?,
        Format::Firefox => firefox::write_firefox(profile, names, event, &profile_title(arguments, profile), out)?,
        Format::Top => top::write_top(profile, names, event, arguments.rows, out)?,
    }
    Ok(())
}

/// What was recorded: perf's command line, or else the recording's name.
fn profile_title(arguments: &ProfileArguments, profile: &Profile) -> String {
    match profile.features.command.as_slice() {
        [] => shown_path(&arguments.recording),
        command => command.join(" "),
    }
}

/// The path that is opened for a recording.
fn path_of_recording(recording: &Path) -> &Path {
    match recording == Path::new("-") {
        true => Path::new("/dev/stdin"),
        false => recording,
    }
}

fn open_recording(path: &Path) -> Result<Recording<'static>, Failure> {
    let opened = path_of_recording(path);
    let cannot = |error: &dyn std::fmt::Display| Failure::File(format!("cannot read {}: {}", shown_path(path), error));
    let file = File::open(opened).map_err(|error| cannot(&error))?;
    let metadata = file.metadata().map_err(|error| cannot(&error))?;
    let recording = match metadata {
        folder if folder.is_dir() => Recording::of_folder(opened),
        regular if regular.is_file() => Recording::of_file(&file),
        _ => Recording::of_pipe(file),
    };
    recording.map_err(|damage| unread_recording(path, &damage))
}

/// The failure for a recording that can't be opened. Of a folder, it names the file.
fn unread_recording(path: &Path, damage: &Damage) -> Failure {
    match damage {
        Damage::InFile(name, why) if name == "data" => Failure::File(format!(
            "{}: {}; give a file, or a folder that perf record --threads wrote",
            shown_path(&path.join(name)),
            why
        )),
        Damage::InFile(name, why) => Failure::File(format!("{}: {}", shown_path(&path.join(name)), why)),
        _ => Failure::File(format!("{}: {}", shown_path(path), damage)),
    }
}

/// Shows on a terminal how much of the recording was read.
fn progress_of_recording(size: Option<u64>) -> ProgressBar {
    let bar = match size {
        Some(size) => ProgressBar::new(size),
        None => return ProgressBar::hidden(),
    };
    match ProgressStyle::with_template("{bar:40} {bytes} of {total_bytes}, {eta} left") {
        Ok(style) => bar.with_style(style),
        Err(_) => bar,
    }
}

fn profile_options(arguments: &ProfileArguments, fetcher: &Fetcher) -> Result<Options, Failure> {
    let times = arguments.time.as_deref().map_or(Ok(0..=u64::MAX), parse_time_range)?;
    let (root, fetcher) = (arguments.root.clone(), fetcher.clone());
    Ok(Options {
        comms: arguments.comm.clone(),
        pids: arguments.pid.clone(),
        tids: arguments.tid.clone(),
        times,
        event: arguments.event.clone(),
        limit: arguments.max_stack,
        search_paths: SearchPaths { root, fetcher, ..SearchPaths::default() },
    })
}

/// Times in nanoseconds, from two numbers of seconds, either of which may be left out.
fn parse_time_range(text: &str) -> Result<RangeInclusive<u64>, Failure> {
    let wrong = || Failure::Argument(format!("--time {}: give two times in seconds, such as 12.5,13", text));
    let (begin, end) = text.split_once(',').ok_or_else(wrong)?;
    let begin = if begin.is_empty() { Some(0) } else { parse_seconds(begin) };
    let end = if end.is_empty() { Some(u64::MAX) } else { parse_seconds(end) };
    let (begin, end) = begin.zip(end).ok_or_else(wrong)?;
    if begin > end {
        return Err(wrong());
    }
    Ok(begin..=end)
}

fn parse_seconds(text: &str) -> Option<u64> {
    const DIGITS: usize = 9;
    let (whole, part) = text.split_once('.').unwrap_or((text, "0"));
    let is_number = |text: &str| !text.is_empty() && text.bytes().all(|byte| byte.is_ascii_digit());
    if !is_number(whole) || !is_number(part) || part.len() > DIGITS {
        return None;
    }
    let part: u64 = format!("{:0<9}", part).parse().ok()?;
    whole.parse::<u64>().ok()?.checked_mul(1_000_000_000)?.checked_add(part)
}

#[cfg(test)]
mod tests {
    use super::parse_time_range;

    #[test]
    fn times_are_seconds_and_either_may_be_left_out() {
        assert_eq!(parse_time_range("1.5,2").unwrap(), 1_500_000_000..=2_000_000_000);
        assert_eq!(parse_time_range(",0.000001").unwrap(), 0..=1000);
        assert_eq!(parse_time_range("3,").unwrap(), 3_000_000_000..=u64::MAX);
        for wrong in ["", "1", "2,1", "-1,2", "1.2.3,", "1e3,", "99999999999,", "1,2,3"] {
            assert!(parse_time_range(wrong).is_err(), "{}", wrong);
        }
    }
}
