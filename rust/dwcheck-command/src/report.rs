//! The command `report`: writes one page about the frame sections of programs.

use crate::arguments::ReportArguments;
use crate::end::{shown_path, Done, Failure};
use crate::inquiry::{content_of, detail, VERSION};
use crate::kept::SharedStore;
use crate::opened::{open_elf, parse_program, write_note};
use crate::output::{check_output_apart, Output};
use dwcheck_elf::mapped::Bytes;
use dwcheck_elf::program_report::page::{self, Contents, ROOM};
use dwcheck_elf::program_report::{Difference, Report, SectionStatus};
use dwcheck_store::{Answer, Digest, Outcome, Question};
use serde_json::{json, Value};
use std::io::Write;
use std::path::{Path, PathBuf};

/// The programs, with their bytes.
type Programs<'a> = [(&'a PathBuf, Bytes)];

/// How a report ended.
struct Ended {
    done: Done,
    /// What is said on standard error of programs, by their indexes.
    notes: Vec<(usize, String)>,
}

/// Writes the page on `out` or to a file.
pub fn report(arguments: &ReportArguments, out: &mut impl Write) -> Result<Done, Failure> {
    if arguments.compare && arguments.programs.len() != 2 {
        return Err(Failure::Argument("bad argument: --compare takes two programs, the old one first".to_string()));
    }
    if let Some(output) = &arguments.output {
        check_output_apart(output, arguments.programs.iter().map(PathBuf::as_path))?;
    }
    let programs =
        arguments.programs.iter().map(|path| Ok((path, open_elf(path)?))).collect::<Result<Vec<_>, Failure>>()?;
    let ended = match &arguments.store {
        Some(store) => write_kept(arguments, &programs, store, out)?,
        None => write_to_output(arguments, out, |out| write_report(arguments, &programs, out))?,
    };
    ended.notes.iter().for_each(|(index, note)| write_note(&arguments.programs[*index], note));
    Ok(ended.done)
}

/// Calls `write` with the output that was asked for.
fn write_to_output<T>(
    arguments: &ReportArguments,
    out: &mut impl Write,
    write: impl FnOnce(&mut dyn Write) -> Result<T, Failure>,
) -> Result<T, Failure> {
    match &arguments.output {
        None => write(out),
        Some(path) => {
            let mut output = Output::create(path)?;
            let written = write(output.writer())?;
            output.finish()?;
            Ok(written)
        }
    }
}

/// Writes the page that a store has for the same programs, or makes it, and keeps it there.
fn write_kept(
    arguments: &ReportArguments,
    programs: &Programs<'_>,
    store: &Path,
    out: &mut impl Write,
) -> Result<Ended, Failure> {
    let store = SharedStore::open(store)?;
    let digests: Vec<_> = programs.iter().map(|(_, data)| Digest::of(data)).collect();
    let question = question_of(arguments, &digests);
    let answer = match store.answer(digests[0], &question)? {
        Some(answer) => answer,
        None => {
            let mut page = Vec::new();
            let ended = write_report(arguments, programs, &mut page)?;
            let answer = answer_of_page(&ended, &String::from_utf8_lossy(&page));
            store.keep(&content_of(&programs[0].1, digests[0]), &question, &answer)?;
            answer
        }
    };
    write_to_output(arguments, out, |out| Ok(out.write_all(detail(&answer.details, "page").as_bytes())?))?;
    Ok(ended_of_answer(&answer))
}

/// What is asked of the first program: the page has the names of all of them, and what is in the others.
fn question_of(arguments: &ReportArguments, digests: &[Digest]) -> Question {
    let titles = arguments.programs.iter().map(|path| shown_path(path));
    let programs: Vec<_> = titles.zip(digests).map(|(title, digest)| json!([title, digest.to_string()])).collect();
    let mut options = vec![format!("programs={}", json!(programs))];
    if arguments.compare {
        options.push("compare".to_string());
    }
    if !arguments.function.is_empty() {
        options.push(format!("functions={}", json!(arguments.function)));
    }
    Question::new("report", VERSION, options, [])
}

fn answer_of_page(ended: &Ended, page: &str) -> Answer {
    Answer {
        outcome: if ended.done == Done::Unread { Outcome::Unread } else { Outcome::Read },
        findings: Vec::new(),
        totals: vec![("refused".to_string(), u64::from(ended.done == Done::Refused))],
        details: json!({ "page": page, "notes": ended.notes }),
    }
}

fn ended_of_answer(answer: &Answer) -> Ended {
    let done = match (answer.outcome, answer.totals.first()) {
        (Outcome::Unread, _) => Done::Unread,
        (_, Some((_, 1))) => Done::Refused,
        _ => Done::Accepted,
    };
    let notes = answer.details["notes"].as_array().into_iter().flatten();
    let note = |note: &Value| Some((note[0].as_u64()? as usize, note[1].as_str()?.to_string()));
    Ended { done, notes: notes.filter_map(note).collect() }
}

/// Reads the programs, and writes the page.
fn write_report(
    arguments: &ReportArguments,
    programs: &Programs<'_>,
    mut out: &mut dyn Write,
) -> Result<Ended, Failure> {
    let read = programs.iter().map(|(path, data)| {
        let program = parse_program(path, data)?;
        Ok(Report::read(shown_path(path), &program))
    });
    let reports = read.collect::<Result<Vec<_>, Failure>>()?;
    let difference = match reports.as_slice() {
        [old, new] if arguments.compare => Some(Difference::of(old, new)),
        _ => None,
    };
    let contents = Contents {
        only: selected_functions(&arguments.function, &reports)?,
        difference,
        reports: &reports,
        room: ROOM,
    };
    page::write(&contents, &mut out)?;
    let statuses = reports.iter().flat_map(|report| &report.sections).map(|section| &section.status);
    let notes = reports.iter().enumerate().flat_map(|(index, report)| {
        report.sections.iter().filter_map(move |section| match &section.status {
            SectionStatus::Unread(why) => Some((index, why.to_string())),
            _ => None,
        })
    });
    Ok(Ended { done: statuses.map(done_of_section).max().unwrap_or(Done::Accepted), notes: notes.collect() })
}

/// The functions with these names, of each program. `None` if no names are given.
fn selected_functions(names: &[String], reports: &[Report<'_>]) -> Result<Option<Vec<Vec<usize>>>, Failure> {
    let is_known = |name: &&String| reports.iter().any(|report| report.named(name).next().is_some());
    if let Some(name) = names.iter().find(|name| !is_known(name)) {
        return Err(Failure::Argument(format!("bad argument: no FDE is that of a function with the name {}", name)));
    }
    let of_report =
        |report: &Report<'_>| names.iter().flat_map(|name| report.named(name).collect::<Vec<_>>()).collect();
    Ok(Some(reports.iter().map(of_report).collect()).filter(|_| !names.is_empty()))
}

fn done_of_section(status: &SectionStatus) -> Done {
    match status {
        SectionStatus::Accepted => Done::Accepted,
        SectionStatus::Refused(..) => Done::Refused,
        SectionStatus::Unread(_) => Done::Unread,
    }
}
