//! Writes all that a store has as lines of JSON, or its findings as CSV. The order is one that only the content of the
//! store decides: two stores with the same content give the same bytes.

use crate::answer::Answer;
use crate::answers::read_answer;
use crate::digest::Digest;
use crate::error::{Problem, StoreError};
use crate::store::Store;
use rusqlite::{Connection, Row};
use serde_json::{json, Map, Value};
use std::io::Write;

/// A form of the export.
#[derive(Clone, Copy, Debug, PartialEq, Eq)]
pub enum Format {
    /// A line of JSON for each answer.
    JsonLines,
    /// A table of RFC 4180 with a line for each finding in each file.
    Csv,
}

/// All answers for contents that are in files.
const ANSWERS: &str = "
    SELECT content.id, sha256, bytes, build_id, compiler, command, options, version, answer.id, outcome, inputs
    FROM answer
    JOIN content ON content.id = answer.content JOIN question ON question.id = answer.question
    WHERE EXISTS (SELECT 1 FROM place WHERE place.content = content.id) ORDER BY sha256, command, options";

/// The files in which a content is.
const PLACES: &str = "
    SELECT path, member, name, version, architecture, source FROM place JOIN file ON file.id = place.file
    LEFT JOIN package ON package.id = file.package WHERE place.content = ?1 ORDER BY path, member";

/// The columns of the table, and what they have.
const COLUMNS: [(&str, &str); 18] = [
    ("package", "package.name"),
    ("package_version", "package.version"),
    ("architecture", "package.architecture"),
    ("source", "package.source"),
    ("path", "file.path"),
    ("member", "place.member"),
    ("sha256", "lower(hex(content.sha256))"),
    ("build_id", "content.build_id"),
    ("compiler", "content.compiler"),
    ("command", "question.command"),
    ("options", "question.options"),
    ("version", "answer.version"),
    ("inputs", "answer.inputs"),
    ("kind", "finding.kind"),
    ("severity", "finding.severity"),
    ("function", "finding.function"),
    ("address", "finding.address"),
    ("text", "finding.text"),
];

/// What the table is made of.
const FINDINGS: &str = "
    FROM finding JOIN answer ON answer.id = finding.answer JOIN question ON question.id = answer.question
        JOIN content ON content.id = answer.content JOIN place ON place.content = content.id
        JOIN file ON file.id = place.file LEFT JOIN package ON package.id = file.package
    ORDER BY file.path, place.member, question.command, question.options, finding.number";

impl Store {
    /// Writes all that the store has of files that are still there.
    ///
    /// # Errors
    ///
    /// If the store can't be read, and those of `out`.
    pub fn export(&self, format: Format, out: &mut impl Write) -> Result<(), StoreError> {
        self.read(|connection| match format {
            Format::JsonLines => write_lines(connection, out),
            Format::Csv => write_table(connection, out),
        })
    }
}

fn write_lines(connection: &Connection, out: &mut impl Write) -> Result<(), Problem> {
    let mut statement = connection.prepare(ANSWERS)?;
    let mut rows = statement.query([])?;
    while let Some(row) = rows.next()? {
        let places = places_of(connection, row.get(0)?)?;
        let outcome: String = row.get(9)?;
        let answer = read_answer(connection, row.get(8)?, &outcome, None)?;
        writeln!(out, "{}", answer_object(row, &answer, places)?)?;
    }
    Ok(())
}

fn answer_object(row: &Row<'_>, answer: &Answer, places: Vec<Value>) -> rusqlite::Result<Value> {
    let finding = |one: &crate::Finding| {
        json!({ "kind": one.kind, "severity": one.severity, "function": one.function, "address": one.address,
            "text": one.text })
    };
    let text = |index| row.get::<_, Option<String>>(index);
    let totals: Map<_, _> = answer.totals.iter().map(|(name, count)| (name.clone(), json!(count))).collect();
    Ok(json!({
        "sha256": Digest(row.get(1)?).to_string(),
        "bytes": row.get::<_, i64>(2)?,
        "build_id": text(3)?,
        "compiler": text(4)?,
        "command": text(5)?,
        "options": text(6)?,
        "version": text(7)?,
        "inputs": text(10)?,
        "outcome": answer.outcome.name(),
        "places": places,
        "totals": totals,
        "findings": answer.findings.iter().map(finding).collect::<Vec<_>>(),
    }))
}

fn places_of(connection: &Connection, content: i64) -> rusqlite::Result<Vec<Value>> {
    let mut statement = connection.prepare_cached(PLACES)?;
    let place = |row: &Row<'_>| {
        let text = |index| row.get::<_, Option<String>>(index);
        let (path, member) = (text(0)?, text(1)?);
        let package = match text(2)? {
            Some(name) => {
                json!({ "name": name, "version": text(3)?, "architecture": text(4)?, "source": text(5)? })
            }
            None => Value::Null,
        };
        Ok(json!({ "path": path, "member": member, "package": package }))
    };
    let places = statement.query_map([content], place)?;
    places.collect()
}

fn write_table(connection: &Connection, out: &mut impl Write) -> Result<(), Problem> {
    let names: Vec<_> = COLUMNS.iter().map(|(name, _)| name.to_string()).collect();
    let columns: Vec<_> = COLUMNS.iter().map(|(_, column)| *column).collect();
    write!(out, "{}\r\n", names.join(","))?;
    let mut statement = connection.prepare(&format!("SELECT {} {}", columns.join(", "), FINDINGS))?;
    let mut rows = statement.query([])?;
    while let Some(row) = rows.next()? {
        let cell = |index| Ok(quoted(&row.get::<_, Option<String>>(index)?.unwrap_or_default()));
        let cells = (0..COLUMNS.len()).map(cell).collect::<rusqlite::Result<Vec<_>>>()?;
        write!(out, "{}\r\n", cells.join(","))?;
    }
    Ok(())
}

/// A cell of a table, in quotes if it needs them.
fn quoted(text: &str) -> String {
    match text.contains(|c| matches!(c, ',' | '"' | '\r' | '\n')) {
        true => format!("\"{}\"", text.replace('"', "\"\"")),
        false => text.to_string(),
    }
}
