//! The command `survey`: checks all ELF files in folders.

mod contents;
mod json;
mod sarif;
mod totals;

use crate::arguments::SurveyArguments;
use crate::end::{shown_path, Done, Failure};
use crate::files::Files;
use crate::inquiry::{detail_list, unread, Inputs, Inquiry, Subject};
use crate::opened::write_note;
use contents::{answer_of_sections, Section};
use dwcheck_elf::debug_files::DebugFiles;
use dwcheck_elf::inspect::{inspect, inspect_frame_sections, inspect_sframe, Check};
use dwcheck_elf::lines::Lines;
use dwcheck_elf::program::Program;
use dwcheck_store::Answer;
use std::io::{self, Write};
use std::path::Path;
use totals::Totals;

/// Checks all files, and writes their faults and the totals, as text, as JSON or as SARIF.
pub fn survey(arguments: &SurveyArguments, out: &mut impl Write) -> Result<Done, Failure> {
    let inputs = Inputs::find(&arguments.paths, arguments.jobs, &arguments.kept)?;
    // Notes are also in the documents of JSON and SARIF.
    let counts_only = !(arguments.notes.notes || arguments.json || arguments.sarif);
    let asked = Asked {
        check: Check { all: arguments.all, compare: arguments.compare, counts_only, ..Check::default() },
        has_lists: arguments.lists,
        has_lines: arguments.sarif,
    };
    let mut totals = Totals::of(&inputs.files);
    let mut results = sarif::Results::default();
    if arguments.json {
        json::write_json_unread(out, &inputs.files)?;
    } else {
        note_unread_files(&inputs.files);
    }
    let repeated = inputs.each_answer(&asked, |path, answer| {
        totals.count(answer);
        write_surveyed(out, arguments, path, answer, &mut results)
    })?;
    totals.add("repeated", repeated);
    write_survey_totals(out, arguments, &totals, results)?;
    Ok(totals.done())
}

/// Writes what was found in a file, or keeps it for the document of SARIF.
fn write_surveyed(
    out: &mut impl Write,
    arguments: &SurveyArguments,
    path: &Path,
    answer: &Answer,
    results: &mut sarif::Results,
) -> io::Result<()> {
    match (arguments.json, arguments.sarif) {
        (true, _) => json::write_json_file(out, path, answer),
        (false, true) => {
            results.add(path, answer);
            note_unread_sections(path, answer);
            Ok(())
        }
        (false, false) => write_refusals(out, path, answer),
    }
}

/// Writes the totals, and the document of SARIF that has them.
fn write_survey_totals(
    out: &mut impl Write,
    arguments: &SurveyArguments,
    totals: &Totals,
    results: sarif::Results,
) -> io::Result<()> {
    match (arguments.json, arguments.sarif) {
        (true, _) => json::write_json_totals(out, totals),
        (false, true) => results.write(out, json::json_totals(totals)),
        (false, false) => totals.write(out, arguments.notes.notes),
    }
}

/// What to look at in each file.
struct Asked {
    check: Check,
    /// Whether location lists are checked too.
    has_lists: bool,
    /// Whether the source lines of faults are looked up.
    has_lines: bool,
}

impl Inquiry for Asked {
    fn command(&self) -> &'static str {
        "survey"
    }

    fn options(&self) -> Vec<String> {
        let Check { all, compare, counts_only, .. } = self.check;
        let options = [
            ("all", all),
            ("compare", compare),
            ("lines", self.has_lines),
            ("lists", self.has_lists),
            ("notes", !counts_only),
        ];
        let asked = options.into_iter().filter(|(_, is_asked)| *is_asked);
        asked.map(|(name, _)| name.to_string()).collect()
    }

    fn answer(&self, subject: &Subject<'_>) -> Answer {
        let program = match subject.program() {
            Ok(program) => program,
            Err(error) => return unread(error.to_string()),
        };
        let inspected = match self.has_lists {
            true => inspect(&program, self.check),
            false => inspect_frame_sections(&program, self.check).into_iter().chain(inspect_sframe(&program)).collect(),
        };
        let mut sections: Vec<_> = inspected.into_iter().map(Section::of).collect();
        if self.has_lines && sections.iter().any(|section| !section.defects.is_empty()) {
            find_source_lines(&program, &mut sections);
        }
        answer_of_sections(program.machine(), &sections, self.has_lines)
    }
}

/// Looks up the source line of each fault.
fn find_source_lines(program: &Program<'_>, sections: &mut [Section]) {
    let files = DebugFiles::default();
    let lines = match Lines::read(program, None, &files) {
        Some(lines) => lines,
        None => return,
    };
    for section in sections {
        let line = |defect| lines.line(sarif::address_of_fde(defect)?);
        section.lines = section.defects.iter().map(line).collect();
    }
}

/// Says on standard error which files and folders can't be read.
pub fn note_unread_files(files: &Files) {
    for (path, error) in &files.unread {
        let _ = writeln!(io::stderr(), "dwcheck-elf: cannot read {}: {}", shown_path(path), error);
    }
}

/// Says on standard error why a file or a section can't be read or checked.
fn note_unread_sections(path: &Path, answer: &Answer) {
    let error = answer.details["error"].as_str();
    error.into_iter().chain(detail_list(&answer.details, "notes")).for_each(|note| write_note(path, note));
}

/// Writes two lines for each fault of a file. Also says why the file or a section can't be read.
fn write_refusals(out: &mut impl Write, path: &Path, answer: &Answer) -> io::Result<()> {
    if !answer.findings.is_empty() {
        let mut defects = answer.findings.iter();
        defects.try_for_each(|defect| writeln!(out, "{}: {}", shown_path(path), defect.text))?;
        out.flush()?;
    }
    note_unread_sections(path, answer);
    Ok(())
}
