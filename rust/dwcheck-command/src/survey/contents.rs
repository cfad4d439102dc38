//! What was found in the sections of a file, and how it becomes an answer.

use super::json::json_section;
use super::sarif::sarif_result;
use crate::known::without_offset;
use crate::opened::DefectText;
use dwcheck_elf::fault::Defect;
use dwcheck_elf::frames::{Counts, Name, Notes};
use dwcheck_elf::inspect::{Inspected, Verdict};
use dwcheck_elf::lines::SourceLine;
use dwcheck_elf::lists;
use dwcheck_elf::sframe::SframeCounts;
use dwcheck_store::{Answer, Finding, Outcome};
use serde_json::{json, Value};
use std::collections::BTreeMap;
use std::iter::repeat;

/// The result of checking a section.
pub struct Section {
    pub name: Name,
    pub bytes: usize,
    /// How much the section holds, if it was accepted.
    pub held: Held,
    /// The section's faults. Empty if it was accepted, or couldn't be checked.
    pub defects: Vec<Defect>,
    /// The source line of each fault, if it was asked for.
    pub lines: Vec<Option<SourceLine>>,
    /// Why the section can't be read or checked.
    pub error: Option<String>,
    pub notes: Notes,
    /// What location lists have that were found by `.debug_info`.
    pub lists: Option<lists::Contents>,
}

/// How much an accepted section holds.
#[derive(Clone, Copy, Debug)]
pub enum Held {
    Frames {
        cies: usize,
        fdes: usize,
        rows: usize,
    },
    Lists {
        lists: usize,
        expressions: usize,
    },
    /// Not known, because the section was refused, or couldn't be checked.
    Unknown,
}

impl Section {
    /// The result for a section that was looked at.
    pub fn of(inspected: Inspected<'_>) -> Self {
        let Inspected { name, bytes, frames, lists, verdict, .. } = inspected;
        let notes = frames.as_ref().map(Notes::of).unwrap_or_default();
        let mut error = None;
        let (held, defects) = match verdict {
            Verdict::Frames(Counts { cies, fdes, rows, .. }) => (Held::Frames { cies, fdes, rows }, Vec::new()),
            Verdict::Sframe(SframeCounts { functions, rows, .. }) => {
                (Held::Frames { cies: 0, fdes: functions, rows }, Vec::new())
            }
            Verdict::Lists(found) => {
                (Held::Lists { lists: found.lists as usize, expressions: found.expressions.len() }, Vec::new())
            }
            Verdict::FoundLists => {
                let (count, entries) = lists.as_ref().map_or((0, 0), |found| (found.lists, found.entries));
                (Held::Lists { lists: count, expressions: entries }, Vec::new())
            }
            Verdict::Refused(defects) => (Held::Unknown, defects),
            Verdict::Unread(why) => {
                error = Some(why.to_string());
                (Held::Unknown, Vec::new())
            }
        };
        Section { name, bytes, held, defects, lines: Vec::new(), error, notes, lists }
    }

    /// What is counted of it, by the names in the totals. Nothing if it can't be checked.
    fn counts(&self) -> Vec<(&'static str, usize)> {
        if self.error.is_some() {
            return Vec::new();
        }
        let is_refused = usize::from(!self.defects.is_empty());
        let Notes { signal_frames, args_sizes, negated, empty_records, copies, mended } = self.notes;
        let mut counts = vec![
            ("sections", 1),
            ("accepted", 1 - is_refused),
            ("refused", is_refused),
            ("bytes", self.bytes),
            ("signal-frames", signal_frames),
            ("args-sizes", args_sizes),
            ("mended", mended),
            ("empty-records", empty_records),
            ("copies", copies),
            ("negated", negated),
        ];
        match self.held {
            Held::Frames { cies, fdes, rows } => counts.extend([("cies", cies), ("fdes", fdes), ("rows", rows)]),
            Held::Lists { lists, expressions } => counts.extend([("lists", lists), ("expressions", expressions)]),
            Held::Unknown => {}
        }
        counts
    }

    fn findings(&self, has_lines: bool) -> impl Iterator<Item = Finding> + '_ {
        let lines = self.lines.iter().map(Option::as_ref).chain(repeat(None));
        self.defects.iter().zip(lines).map(move |(defect, line)| finding_of_defect(defect, line, has_lines))
    }
}

/// The answer of a file with these sections. If `has_lines`, it has what SARIF needs.
pub fn answer_of_sections(machine: u16, sections: &[Section], has_lines: bool) -> Answer {
    let mut totals: BTreeMap<&str, u64> = BTreeMap::new();
    let counts = sections.iter().flat_map(Section::counts);
    counts.for_each(|(name, count)| *totals.entry(name).or_default() += count as u64);
    let errors: Vec<_> = sections.iter().filter_map(|section| section.error.as_deref()).collect();
    Answer {
        outcome: if errors.is_empty() { Outcome::Read } else { Outcome::Unread },
        findings: sections.iter().flat_map(|section| section.findings(has_lines)).collect(),
        totals: totals.into_iter().map(|(name, count)| (name.to_string(), count)).collect(),
        details: json!({
            "machine": machine,
            "notes": errors,
            "sections": sections.iter().map(json_section).collect::<Vec<_>>(),
        }),
    }
}

fn finding_of_defect(defect: &Defect, line: Option<&SourceLine>, has_lines: bool) -> Finding {
    let for_sarif = || json!({ "sarif": sarif_result(defect, line), "rule": defect.rule });
    Finding {
        kind: defect.fault.to_string(),
        severity: "refused".to_string(),
        function: defect.function.as_deref().map(|name| without_offset(name).to_string()),
        address: format!("{}+{:#x}", defect.section, defect.at),
        text: DefectText(defect).to_string(),
        details: if has_lines { for_sarif() } else { Value::Null },
    }
}
