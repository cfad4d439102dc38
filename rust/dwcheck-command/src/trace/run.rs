//! Runs programs that are traced, and writes what is found.

use crate::arguments::{LintArguments, TraceArguments};
use crate::end::{shown_path, Done, Failure};
use dwcheck_lint::finding::Severity;
use dwcheck_lint::finding_text::{Json, Quoted, Text};
use dwcheck_trace::{run_guarded, Confirmed, End, FdeCoverage, FileReport, Found, ModuleFile, Options};
use dwcheck_trace::{TraceError, Tracer};
use std::ffi::OsString;
use std::fs::File;
use std::io::{self, BufWriter, Write};
use std::path::Path;
use std::time::Duration;
use typed_arena::Arena;

/// How long a process that runs already is sampled, in seconds, if that isn't said.
const SAMPLED: u64 = 10;

/// How many calls of a function are stepped to confirm a finding in it.
const CONFIRMING_CALLS: u64 = 20;

/// How many findings there are, by how bad they are.
#[derive(Default)]
struct Totals {
    broken: usize,
    lost: usize,
    private: usize,
}

/// Runs a program, and writes what is found. A process that runs already is stepped by a process of its own.
pub fn trace(arguments: &TraceArguments) -> Result<Done, Failure> {
    if arguments.pid.is_none() {
        return trace_program(arguments);
    }
    let run = || match trace_program(arguments) {
        Ok(done) => done.status(),
        Err(failure) => {
            let _ = writeln!(io::stderr(), "dwcheck-elf: {}", failure);
            failure.status()
        }
    };
    let status = run_guarded(run).map_err(|error| Failure::File(format!("no process: {}", error.desc())))?;
    Ok(Done::Status(status))
}

fn trace_program(arguments: &TraceArguments) -> Result<Done, Failure> {
    let patterns = arguments.module.iter().map(|text| parse_pattern(text)).collect::<Result<_, _>>()?;
    let seconds = arguments.seconds.or_else(|| arguments.pid.map(|_| SAMPLED));
    let options = Options {
        modules: patterns,
        calls: arguments.calls,
        all: arguments.all || arguments.pid.is_some(),
        time: seconds.map(Duration::from_secs),
        idle: arguments.idle,
        follows_forks: arguments.follow_fork,
        confirms: false,
    };
    let mut out = open_output(arguments.output.as_deref())?;
    let (bytes, sections) = (Arena::new(), Arena::new());
    let mut tracer = Tracer::new(options, &bytes, &sections);
    let end = match arguments.pid {
        Some(pid) => tracer.sample_process(pid).map_err(|error| trace_failure(&format!("process {}", pid), &error))?,
        None => tracer.run(&arguments.program).map_err(|error| start_failure(&arguments.program, &error))?,
    };
    warn_of_problems(&tracer);
    let mut totals = Totals::default();
    for report in tracer.files() {
        write_file_report(&mut out, &report, arguments, &mut totals)?;
    }
    write_trace_totals(&mut out, &tracer, end, &totals, arguments.json)?;
    out.flush()?;
    Ok(if arguments.status || arguments.pid.is_some() { done_of_findings(totals.all()) } else { own_status(end) })
}

/// Runs a program, and says of each finding of the lint whether it is so.
pub fn confirm(arguments: &LintArguments, out: &mut impl Write) -> Result<Done, Failure> {
    let paths = arguments.paths.iter().map(|path| {
        let path = path.canonicalize().map_err(|error| Failure::reading(path, &error))?;
        parse_pattern(&glob::Pattern::escape(&path.to_string_lossy()))
    });
    let options = Options {
        modules: paths.collect::<Result<_, _>>()?,
        calls: CONFIRMING_CALLS,
        all: false,
        time: None,
        idle: 3_000,
        follows_forks: false,
        confirms: true,
    };
    let (bytes, sections) = (Arena::new(), Arena::new());
    let mut tracer = Tracer::new(options, &bytes, &sections);
    tracer.run(&arguments.program).map_err(|error| start_failure(&arguments.program, &error))?;
    warn_of_problems(&tracer);
    let (mut confirmed, mut refuted, mut not_reached) = (0, 0, 0);
    for found in tracer.confirmations() {
        writeln!(out, "{}: {}\n    run: {}", shown_path(found.path), found.suspect.text, found.confirmed)?;
        match found.confirmed {
            Confirmed::Confirmed { .. } => confirmed += 1,
            Confirmed::Refuted(_) => refuted += 1,
            Confirmed::NotReached => not_reached += 1,
        }
    }
    let all = confirmed + refuted + not_reached;
    writeln!(out, "findings {} confirmed {} refuted {} not-reached {}", all, confirmed, refuted, not_reached)?;
    // What is refuted is a defect of the lint's, and not one of the program.
    Ok(done_of_findings(confirmed + not_reached))
}

fn done_of_findings(count: usize) -> Done {
    if count == 0 {
        Done::Accepted
    } else {
        Done::Refused
    }
}

/// The program's own status, as a shell gives it.
fn own_status(end: End) -> Done {
    match end {
        End::Exited(status) => Done::Status(status as u8),
        End::Killed(signal) => Done::Status(128u8.wrapping_add(signal as u8)),
        End::Released => Done::Accepted,
    }
}

fn parse_pattern(text: &str) -> Result<glob::Pattern, Failure> {
    glob::Pattern::new(text).map_err(|error| Failure::Argument(format!("bad argument: {}: {}", text, error)))
}

fn open_output(path: Option<&Path>) -> Result<Box<dyn Write>, Failure> {
    match path {
        None => Ok(Box::new(BufWriter::new(io::stderr()))),
        Some(path) => {
            let file = File::create(path);
            let file = file.map_err(|error| Failure::File(format!("cannot write {}: {}", shown_path(path), error)))?;
            Ok(Box::new(BufWriter::new(file)))
        }
    }
}

fn start_failure(arguments: &[OsString], error: &TraceError) -> Failure {
    let name = arguments.first().map_or_else(String::new, |program| shown_path(Path::new(program)));
    trace_failure(&name, error)
}

fn trace_failure(what: &str, error: &TraceError) -> Failure {
    Failure::File(format!("{}: {}", what, error))
}

fn warn_of_problems(tracer: &Tracer<'_, '_>) {
    for problem in tracer.problems() {
        // If standard error is closed, nobody can read this, so it doesn't matter that it fails.
        let _ = writeln!(io::stderr(), "dwcheck-elf: {}", problem);
    }
}

/// Writes what was found in a file, and how much of it was seen.
fn write_file_report(
    out: &mut dyn Write,
    report: &FileReport<'_, '_>,
    arguments: &TraceArguments,
    totals: &mut Totals,
) -> io::Result<()> {
    if !report.file.is_stepped {
        return Ok(());
    }
    let path = shown_path(&report.file.path);
    let is_shown = |found: &&Found<'_>| arguments.private || found.finding.severity != Severity::Private;
    for found in report.found.iter().filter(is_shown) {
        totals.count(found.finding.severity);
        write_trace_finding(out, report, found, arguments.json)?;
    }
    if arguments.functions {
        report.fdes.iter().try_for_each(|fde| write_function_coverage(out, report.file, fde, arguments.json))?;
    }
    let counts = report.coverage.named();
    if arguments.json {
        return writeln!(out, "{{\"file\":{},\"coverage\":{{{}}}}}", Quoted(&path), counts_as_json(&counts));
    }
    writeln!(out, "{}: {}", path, counts_as_text(&counts))
}

/// Writes how much of a function was seen.
fn write_function_coverage(
    out: &mut dyn Write,
    file: &ModuleFile<'_>,
    seen: &FdeCoverage,
    json: bool,
) -> io::Result<()> {
    let (path, counts, name) = (shown_path(&file.path), seen.named(), file.name(seen.begin));
    if json {
        let name = name.map_or_else(String::new, |name| format!("\"name\":{},", Quoted(&name)));
        let (path, counts) = (Quoted(&path), counts_as_json(&counts));
        return writeln!(out, "{{\"file\":{},\"function\":{{\"fde\":{},{}{}}}}}", path, seen.begin, name, counts);
    }
    let name = name.unwrap_or_else(|| "a function without a name".to_string());
    writeln!(out, "{}: {} ({:#x}): {}", path, name, seen.begin, counts_as_text(&counts))
}

/// Counts as keys of JSON.
fn counts_as_json(counts: &[(&str, u64)]) -> String {
    counts.iter().map(|(name, count)| format!("\"{}\":{}", name, count)).collect::<Vec<_>>().join(",")
}

/// Counts as text.
fn counts_as_text(counts: &[(&str, u64)]) -> String {
    counts.iter().map(|(name, count)| format!("{} {}", name, count)).collect::<Vec<_>>().join(" ")
}

fn write_trace_finding(
    out: &mut dyn Write,
    report: &FileReport<'_, '_>,
    found: &Found<'_>,
    json: bool,
) -> io::Result<()> {
    let (module, path) = (&report.file.module, shown_path(&report.file.path));
    let names = |address| report.file.name(address);
    let Found { finding, judged, wrong } = found;
    if json {
        let object = Json(module, finding, &names).to_string();
        let end = format!("\"judged\":{},\"wrong\":{}}}", judged, wrong);
        return writeln!(out, "{{\"file\":{},{},{}", Quoted(&path), &object[1..object.len() - 1], end);
    }
    writeln!(out, "{}: {}\n    run: wrong {} of {} times", path, Text(module, finding, &names), wrong, judged)
}

fn write_trace_totals(
    out: &mut dyn Write,
    tracer: &Tracer<'_, '_>,
    end: End,
    totals: &Totals,
    json: bool,
) -> io::Result<()> {
    let counts = tracer.counts();
    let findings = [
        ("findings", totals.all() as u64),
        ("backtrace-broken", totals.broken as u64),
        ("register-lost", totals.lost as u64),
        ("private", totals.private as u64),
    ];
    let named: Vec<_> = findings.into_iter().chain(counts.named()).collect();
    let (ended, number) = match end {
        End::Exited(status) => ("exited", status),
        End::Killed(signal) => ("killed", signal),
        End::Released => ("released", 0),
    };
    if json {
        let named: Vec<_> = named.iter().map(|(name, count)| format!("\"{}\":{}", name, count)).collect();
        let seconds = counts.time.as_secs_f64();
        return writeln!(
            out,
            "{{\"totals\":{{{},\"seconds\":{:.3},\"end\":\"{}\",\"number\":{}}}}}",
            named.join(","),
            seconds,
            ended,
            number
        );
    }
    let named: Vec<_> = named.iter().filter(|(name, count)| *count > 0 || *name == "findings").collect();
    let named: Vec<_> = named.iter().map(|(name, count)| format!("{} {}", name, count)).collect();
    writeln!(out, "{} seconds {:.1}", named.join(" "), counts.time.as_secs_f64())
}

impl Totals {
    fn count(&mut self, severity: Severity) {
        match severity {
            Severity::BacktraceBroken => self.broken += 1,
            Severity::RegisterLost => self.lost += 1,
            Severity::Private => self.private += 1,
        }
    }

    fn all(&self) -> usize {
        self.broken + self.lost + self.private
    }
}
