//! The command `lint`: compares the rows of programs with their code.

mod linted;
mod names;
mod sarif;

use crate::arguments::LintArguments;
use crate::debuginfod::{fetcher, note_problems};
use crate::end::{shown_path, Done, Failure};
use crate::findings::{json_in_file, warn_of_file, Findings, Form, Shown};
use crate::inquiry::{detail, detail_list, Inputs};
use crate::known::Known;
use crate::survey::note_unread_files;
use dwcheck_lint::coverage::Coverage;
use dwcheck_lint::finding_text::Quoted;
use dwcheck_lint::kinds::KINDS;
use dwcheck_store::{Answer, Outcome};
use linted::Asked;
use serde_json::{json, Value};
use std::io::{self, Write};
use std::path::Path;

/// What is counted over all files.
#[derive(Default)]
struct Totals {
    files: usize,
    others: usize,
    unread: usize,
    findings: Findings,
    coverage: Coverage,
}

/// Lints all files, and writes what is found, as text or as JSON.
pub fn lint(arguments: &LintArguments, out: &mut impl Write) -> Result<Done, Failure> {
    let all_kinds: Vec<_> = KINDS.iter().map(|(_, name)| *name).collect();
    let shown = Shown {
        form: Form::of_options(arguments.json, arguments.sarif),
        kinds: arguments.kind.clone(),
        known: Known::of_run(arguments.known.as_deref(), "lint", &all_kinds)?,
        all_kinds,
    };
    shown.check_kinds()?;
    let asked = Asked {
        has_private: arguments.private,
        is_explained: arguments.explain && !arguments.json,
        has_lines: arguments.sarif,
        fetcher: fetcher(arguments.debuginfod),
    };
    let inputs = Inputs::find(&arguments.paths, arguments.jobs, &arguments.kept)?;
    note_unread_files(&inputs.files);
    let mut totals = Totals { unread: inputs.files.unread.len(), ..Totals::default() };
    inputs.each_answer(&asked, |path, answer| totals.write_linted(out, path, answer, arguments, &shown))?;
    totals.write_lint_totals(out, arguments)?;
    note_problems(&asked.fetcher);
    Ok(totals.findings.done(totals.unread))
}

/// Whether a file has no FDEs.
fn has_no_fdes(coverage: &Coverage) -> bool {
    coverage.fdes + coverage.signal_frames + coverage.unread == 0
}

/// What was judged of a table, as an answer has it.
fn coverage_of(judged: &Value) -> Coverage {
    let counts = judged["counts"].as_object().into_iter().flatten();
    Coverage::of_named(counts.map(|(name, count)| (name.as_str(), count.as_u64().unwrap_or(0) as u32)))
}

/// A line that says how much of a table was judged.
fn coverage_line(path: &Path, judged: &Value, form: Form) -> String {
    let (coverage, table) = (coverage_of(judged), judged["table"].as_str());
    if form == Form::Json {
        let counts: Vec<_> = coverage.named().iter().map(|(name, count)| format!("\"{}\":{}", name, count)).collect();
        let table = table.map(|table| format!("\"table\":{},", Quoted(table))).unwrap_or_default();
        return json_in_file(&json!(format!("{{{}\"coverage\":{{{}}}}}", table, counts.join(","))), path);
    }
    let table = table.map(|table| format!("{}: ", table)).unwrap_or_default();
    format!("{}: {}{}", shown_path(path), table, coverage)
}

impl Totals {
    /// Writes what was found in a file, and counts it.
    fn write_linted(
        &mut self,
        out: &mut impl Write,
        path: &Path,
        answer: &Answer,
        arguments: &LintArguments,
        shown: &Shown,
    ) -> io::Result<()> {
        let is_named = arguments.paths.iter().any(|named| named == path);
        match answer.outcome {
            Outcome::Read => return self.write_judged(out, path, answer, is_named, shown),
            Outcome::Other if !is_named => self.others += 1,
            Outcome::Other | Outcome::Unread => {
                self.unread += 1;
                warn_of_file(path, &detail(&answer.details, "error"));
            }
        }
        Ok(())
    }

    fn write_judged(
        &mut self,
        out: &mut impl Write,
        path: &Path,
        answer: &Answer,
        is_named: bool,
        shown: &Shown,
    ) -> io::Result<()> {
        let mut coverage = Coverage::default();
        let judged = || answer.details["judged"].as_array().into_iter().flatten();
        judged().for_each(|one| coverage.add(&coverage_of(one)));
        self.files += 1;
        self.coverage.add(&coverage);
        let notes = || detail_list(&answer.details, "notes");
        if has_no_fdes(&coverage) && notes().next().is_none() && is_named {
            self.unread += 1;
            warn_of_file(path, &"no FDEs, so no rows to compare");
        }
        notes().for_each(|reason| warn_of_file(path, &reason));
        self.findings.write(out, path, &answer.findings, shown)?;
        match shown.form {
            Form::Sarif => Ok(()),
            form => judged().try_for_each(|one| writeln!(out, "{}", coverage_line(path, one, form))),
        }
    }

    /// Writes the totals, unless there is only one file; or all findings as SARIF.
    fn write_lint_totals(&mut self, out: &mut impl Write, arguments: &LintArguments) -> io::Result<()> {
        if arguments.sarif {
            let document = sarif::lint_document(std::mem::take(&mut self.findings.results), &self.coverage);
            return writeln!(out, "{:#}", document);
        }
        let counts = [
            ("files", self.files),
            ("others", self.others),
            ("unread", self.unread),
            ("findings", self.findings.total()),
            ("backtrace-broken", self.findings.broken),
            ("register-lost", self.findings.lost),
            ("private", self.findings.private),
            ("known", self.findings.known),
        ];
        if arguments.json {
            let counts = counts.iter().map(|(name, count)| format!("\"{}\":{}", name, count));
            let judged = self.coverage.named();
            let judged = judged.iter().map(|(name, count)| format!("\"{}\":{}", name, count));
            return writeln!(out, "{{\"totals\":{{{}}}}}", counts.chain(judged).collect::<Vec<_>>().join(","));
        }
        if self.files + self.others + self.unread > 1 || self.findings.known > 0 {
            let counts: Vec<_> = counts.iter().map(|(name, count)| format!("{} {}", name, count)).collect();
            writeln!(out, "{}", counts.join(" "))?;
            writeln!(out, "{}", self.coverage)?;
        }
        Ok(())
    }
}
