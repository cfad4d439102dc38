//! The commands over stores: how two differ, how several are joined, and what is in one.

mod page;

use crate::arguments::{
    ExportFormat, StoreCommand, StoreDiffArguments, StoreExportArguments, StoreMergeArguments, StoreReportArguments,
};
use crate::end::{shown_path, Done, Failure};
use crate::output::{check_output_apart, Output};
use dwcheck_store::{Change, Changes, Counts, Format, Located, Store};
use serde_json::{json, Value};
use std::collections::BTreeMap;
use std::io::{self, Write};
use std::path::{Path, PathBuf};

/// Does something with stores.
pub fn store(command: &StoreCommand, out: &mut impl Write) -> Result<Done, Failure> {
    match command {
        StoreCommand::Diff(arguments) => diff(arguments, out),
        StoreCommand::Merge(arguments) => merge(arguments),
        StoreCommand::Report(arguments) => report(arguments, out),
        StoreCommand::Export(arguments) => export(arguments, out),
    }
}

/// Writes the findings that differ between two stores, and counts.
fn diff(arguments: &StoreDiffArguments, out: &mut impl Write) -> Result<Done, Failure> {
    let (old, new) = (Store::open_existing(&arguments.old)?, Store::open_existing(&arguments.new)?);
    let changes = old.diff(&new, |change, located| match arguments.json {
        true => writeln!(out, "{}", change_object(change, located)),
        false => write_change(out, change, located),
    })?;
    match arguments.json {
        true => writeln!(out, "{}", changes_object(&changes))?,
        false => write_changes(out, &changes)?,
    }
    Ok(if changes.total.new > 0 { Done::Refused } else { Done::Accepted })
}

/// Writes a finding that changed: `new PACKAGE: FILE: TEXT`. Of one that is gone, only the first line.
fn write_change(out: &mut impl Write, change: &Change, located: &Located) -> io::Result<()> {
    let package = Some(&located.package).filter(|package| !package.is_empty());
    let package = package.map(|package| format!("{}: ", package)).unwrap_or_default();
    let file = shown_path(Path::new(&located.file));
    match change {
        Change::New => writeln!(out, "new {}{}: {}", package, file, located.text),
        Change::Gone => writeln!(out, "gone {}{}: {}", package, file, located.text.lines().next().unwrap_or("")),
        Change::Moved { file: before, address } => {
            writeln!(out, "moved {}{}: {}", package, file, located.text)?;
            writeln!(out, "    before: {} in {}", address, shown_path(Path::new(before)))
        }
    }
}

fn counts_text(counts: &Counts) -> String {
    format!("new {} gone {} moved {}", counts.new, counts.gone, counts.moved)
}

/// Writes a line for each package and each compiler, and one for all.
fn write_changes(out: &mut impl Write, changes: &Changes) -> io::Result<()> {
    let named = |name: &str| if name.is_empty() { "none".to_string() } else { name.to_string() };
    for (name, counts) in &changes.packages {
        writeln!(out, "package {}: {}", named(name), counts_text(counts))?;
    }
    for (name, counts) in &changes.compilers {
        writeln!(out, "compiler {}: {}", named(name), counts_text(counts))?;
    }
    writeln!(out, "{}", counts_text(&changes.total))
}

fn change_object(change: &Change, located: &Located) -> Value {
    let mut object = json!({
        "package": located.package,
        "file": located.file,
        "compiler": located.compiler,
        "command": located.command,
        "options": located.options,
        "kind": located.kind,
        "severity": located.severity,
        "function": located.function,
        "address": located.address,
        "text": located.text,
    });
    object["change"] = match change {
        Change::New => json!("new"),
        Change::Gone => json!("gone"),
        Change::Moved { file, address } => {
            object["before"] = json!({ "file": file, "address": address });
            json!("moved")
        }
    };
    object
}

fn counts_object(counts: &Counts) -> Value {
    json!({ "new": counts.new, "gone": counts.gone, "moved": counts.moved })
}

fn changes_object(changes: &Changes) -> Value {
    let part = |part: &BTreeMap<String, Counts>| -> Value {
        part.iter().map(|(name, counts)| (name.clone(), counts_object(counts))).collect()
    };
    json!({
        "totals": counts_object(&changes.total),
        "packages": part(&changes.packages),
        "compilers": part(&changes.compilers),
    })
}

/// Adds stores to another one.
fn merge(arguments: &StoreMergeArguments) -> Result<Done, Failure> {
    // All are opened before one is written, so that one that can't be leaves nothing half done.
    let from = arguments.from.iter().map(|path| Store::open_existing(path)).collect::<Result<Vec<_>, _>>()?;
    if let Some(same) = arguments.from.iter().find(|path| is_same_file(path, &arguments.into)) {
        let why = format!("bad argument: {} would be added to itself", shown_path(same));
        return Err(Failure::Argument(why));
    }
    let mut into = Store::open(&arguments.into)?;
    from.iter().try_for_each(|store| into.merge(store))?;
    Ok(Done::Accepted)
}

fn is_same_file(one: &Path, other: &Path) -> bool {
    matches!((one.canonicalize(), other.canonicalize()), (Ok(one), Ok(other)) if one == other)
}

/// Writes a page about a store.
fn report(arguments: &StoreReportArguments, out: &mut impl Write) -> Result<Done, Failure> {
    let store = Store::open_existing(&arguments.store)?;
    let findings = page::Findings::of(&store)?;
    let title = shown_path(&arguments.store);
    write_to(&arguments.store, arguments.output.as_ref(), out, |mut out| Ok(findings.write(&title, &mut out)?))
}

/// Writes what is in a store.
fn export(arguments: &StoreExportArguments, out: &mut impl Write) -> Result<Done, Failure> {
    let store = Store::open_existing(&arguments.store)?;
    let format = match arguments.format {
        ExportFormat::Json => Format::JsonLines,
        ExportFormat::Csv => Format::Csv,
    };
    write_to(&arguments.store, arguments.output.as_ref(), out, |mut out| Ok(store.export(format, &mut out)?))
}

/// Calls `write` with the output that was asked for, which must not be the store.
fn write_to(
    store: &Path,
    output: Option<&PathBuf>,
    out: &mut impl Write,
    write: impl FnOnce(&mut dyn Write) -> Result<(), Failure>,
) -> Result<Done, Failure> {
    match output {
        None => write(out)?,
        Some(path) => {
            check_output_apart(path, [store])?;
            let mut output = Output::create(path)?;
            write(output.writer())?;
            output.finish()?;
        }
    }
    Ok(Done::Accepted)
}
