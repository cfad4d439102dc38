//! Writes the results of a survey as lines of JSON, each of which is an object.

use super::contents::{Held, Section};
use super::totals::Totals;
use crate::files::Files;
use dwcheck_elf::fault::{Defect, Within};
use dwcheck_elf::lists;
use dwcheck_store::Answer;
use serde_json::{json, Map, Value};
use std::io::{self, Write};
use std::path::Path;

/// Writes an object for each file and folder that can't be read.
pub fn write_json_unread(out: &mut impl Write, files: &Files) -> io::Result<()> {
    let mut unread = files.unread.iter();
    unread.try_for_each(|(path, error)| writeln!(out, "{}", json!({ "file": path.to_string_lossy(), "error": error })))
}

/// Writes the object for a file.
pub fn write_json_file(out: &mut impl Write, path: &Path, answer: &Answer) -> io::Result<()> {
    let mut object = json!({ "file": path.to_string_lossy() });
    let shown = ["machine", "sections", "error"].into_iter().filter(|name| !answer.details[*name].is_null());
    shown.for_each(|name| object[name] = answer.details[name].clone());
    writeln!(out, "{}", object)
}

/// Writes the last object.
pub fn write_json_totals(out: &mut impl Write, all: &Totals) -> io::Result<()> {
    writeln!(out, "{}", json!({ "totals": json_totals(all) }))
}

/// The counts of all files, by their names.
pub fn json_totals(totals: &Totals) -> Value {
    let counts: Map<_, _> = totals.named().map(|(name, count)| (name.to_string(), json!(count))).collect();
    Value::Object(counts)
}

/// The object for a section.
pub fn json_section(section: &Section) -> Value {
    let name = section.name.to_string();
    let bytes = section.bytes;
    if let Some(error) = &section.error {
        return json!({ "section": name, "error": error });
    }
    let mut object = match section.held {
        Held::Frames { cies, fdes, rows } => {
            json!({ "section": name, "bytes": bytes, "accepted": true, "cies": cies, "fdes": fdes, "rows": rows })
        }
        Held::Lists { lists, expressions } => {
            json!({ "section": name, "bytes": bytes, "accepted": true, "lists": lists, "expressions": expressions })
        }
        Held::Unknown => {
            let faults: Vec<_> = section.defects.iter().map(json_fault).collect();
            json!({ "section": name, "bytes": bytes, "accepted": false, "faults": faults })
        }
    };
    if let Some(lists) = &section.lists {
        add_list_counts(&mut object, lists);
    }
    object
}

/// Adds what location lists have that were found by `.debug_info`.
fn add_list_counts(object: &mut Value, lists: &lists::Contents) {
    let numbers = [
        ("units", lists.units),
        ("entries", lists.entries),
        ("not_evaluated", lists.with_unsupported),
        ("not_compared", lists.not_compared),
        ("unused", lists.bytes.unused),
        ("gaps", lists.bytes.gaps),
    ];
    numbers.iter().for_each(|(name, number)| object[*name] = json!(number));
    object["holes"] =
        lists.all_unsupported.iter().map(|(unsupported, count)| (unsupported.to_string(), json!(count))).collect();
    object["limits"] = lists.limits.iter().map(|(limit, count)| (limit.to_string(), json!(count))).collect();
    object["doubtful"] = lists.lints.all().map(|(lint, count)| (lint.to_string(), json!(count))).collect();
}

fn json_fault(defect: &Defect) -> Value {
    let Defect { offset, at, fault, what, record, function, rule, .. } = defect;
    let mut object = json!({ "record": at, "offset": offset, "fault": fault, "what": what, "rule": rule });
    if let Some(Within::Fde(range)) = record {
        object["begin"] = json!(range.start);
        object["end"] = json!(range.end);
    }
    if let Some(function) = function {
        object["function"] = json!(function);
    }
    object
}
