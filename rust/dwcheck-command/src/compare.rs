//! The command `compare`: compares the tables of programs with each other.

mod compared;
mod finding;

use crate::arguments::CompareArguments;
use crate::end::{shown_path, Done, Failure};
use crate::findings::{json_in_file, warn_of_file, Findings, Form, Shown};
use crate::inquiry::{detail, detail_list, Inputs};
use crate::known::Known;
use crate::survey::note_unread_files;
use compared::Asked;
use dwcheck_elf::compare::{Kind, KINDS};
use dwcheck_store::{Answer, Outcome};
use serde_json::{json, Value};
use std::io::{self, Write};
use std::path::Path;

/// What is counted over all files.
#[derive(Default)]
struct Totals {
    files: usize,
    /// Files in which there are no two tables.
    single: usize,
    unread: usize,
    findings: Findings,
    /// Addresses that two tables cover, for each pair.
    bytes: u64,
    /// FDEs that were looked for in a sorted table.
    entries: usize,
}

/// Compares the tables of all files, and writes what differs, as text, as JSON or as SARIF.
pub fn compare(arguments: &CompareArguments, out: &mut impl Write) -> Result<Done, Failure> {
    let all_kinds: Vec<_> = KINDS.iter().map(|(_, name, _)| *name).collect();
    let shown = Shown {
        form: Form::of_options(arguments.json, arguments.sarif),
        kinds: arguments.kind.clone(),
        known: Known::of_run(arguments.known.as_deref(), "compare", &all_kinds)?,
        all_kinds,
    };
    shown.check_kinds()?;
    let asked =
        Asked { has_separate: !arguments.no_separate, symbols: arguments.symbols.clone(), has_lines: arguments.sarif };
    let inputs = Inputs::find(&arguments.paths, arguments.jobs, &arguments.kept)?;
    note_unread_files(&inputs.files);
    let mut totals = Totals { unread: inputs.files.unread.len(), ..Totals::default() };
    inputs.each_answer(&asked, |path, answer| totals.write_compared(out, path, answer, arguments, &shown))?;
    totals.write_compare_totals(out, arguments)?;
    Ok(totals.findings.done(totals.unread))
}

impl Totals {
    /// Writes what was found in a file, and counts it.
    fn write_compared(
        &mut self,
        out: &mut impl Write,
        path: &Path,
        answer: &Answer,
        arguments: &CompareArguments,
        shown: &Shown,
    ) -> io::Result<()> {
        if answer.outcome == Outcome::Unread {
            self.unread += 1;
            warn_of_file(path, &detail(&answer.details, "error"));
            return Ok(());
        }
        let total = |wanted: &str| answer.totals.iter().find(|(name, _)| name == wanted).map_or(0, |(_, count)| *count);
        let pairs: Vec<_> = answer.details["pairs"].as_array().into_iter().flatten().collect();
        self.files += 1;
        self.single += usize::from(pairs.is_empty());
        self.bytes = self.bytes.saturating_add(total("bytes"));
        self.entries += total("entries") as usize;
        detail_list(&answer.details, "notes").for_each(|reason| warn_of_file(path, &reason));
        self.findings.write(out, path, &answer.findings, shown)?;
        let is_named = arguments.paths.iter().any(|named| named == path);
        match shown.form {
            Form::Sarif => Ok(()),
            Form::Json => pairs.iter().try_for_each(|pair| writeln!(out, "{}", json_in_file(&pair["json"], path))),
            Form::Text if pairs.is_empty() && is_named => {
                writeln!(out, "{}: there are no two tables to compare", shown_path(path))
            }
            Form::Text => {
                let mut texts = pairs.iter().map(|pair| detail(pair, "text"));
                texts.try_for_each(|text| writeln!(out, "{}: {}", shown_path(path), text))
            }
        }
    }

    fn named(&self) -> [(&'static str, u64); 9] {
        [
            ("files", self.files as u64),
            ("single", self.single as u64),
            ("unread", self.unread as u64),
            ("findings", self.findings.total() as u64),
            ("backtrace-broken", self.findings.broken as u64),
            ("register-lost", self.findings.lost as u64),
            ("known", self.findings.known as u64),
            ("bytes", self.bytes),
            ("entries", self.entries as u64),
        ]
    }

    /// Writes the totals, unless there is only one file; or all findings as SARIF.
    fn write_compare_totals(&mut self, out: &mut impl Write, arguments: &CompareArguments) -> io::Result<()> {
        let counts = || self.named().iter().map(|(name, count)| (name.to_string(), json!(count))).collect::<Value>();
        if arguments.sarif {
            let rule = |(_, name, meaning): &(Kind, &str, &str)| json!({ "id": name, "shortDescription": { "text": meaning } });
            let (rules, counts) = (KINDS.iter().map(rule).collect(), counts());
            let document = crate::sarif::sarif_document(
                std::mem::take(&mut self.findings.results),
                rules,
                json!({ "totals": counts }),
            );
            return writeln!(out, "{:#}", document);
        }
        if arguments.json {
            return writeln!(out, "{}", json!({ "totals": counts() }));
        }
        if self.files + self.unread > 1 || self.findings.known > 0 {
            let counts: Vec<_> = self.named().iter().map(|(name, count)| format!("{} {}", name, count)).collect();
            writeln!(out, "{}", counts.join(" "))?;
        }
        Ok(())
    }
}
