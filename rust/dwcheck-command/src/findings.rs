//! What the commands share that write findings, such as `lint`: the forms in which findings are written, those that
//! are known, and counts.

use crate::end::{shown_path, Done, Failure};
use crate::inquiry::detail;
use crate::known::{Key, Known};
use crate::sarif::result_in_file;
use dwcheck_lint::finding::Severity;
use dwcheck_lint::finding_text::Quoted;
use dwcheck_store::Finding;
use serde_json::{json, Value};
use std::fmt;
use std::io::{self, Write};
use std::path::Path;

/// A form in which findings are written.
#[derive(Clone, Copy, Debug, PartialEq, Eq)]
pub enum Form {
    /// Lines of text.
    Text,
    /// Lines of JSON.
    Json,
    /// A document of SARIF.
    Sarif,
}

/// How findings are written, and which.
pub struct Shown {
    /// The form.
    pub form: Form,
    /// The names of the kinds that are shown. Empty if all are.
    pub kinds: Vec<String>,
    /// The names of all kinds.
    pub all_kinds: Vec<&'static str>,
    /// The findings that are left out.
    pub known: Known,
}

/// How many findings there are, and those that are written as SARIF.
#[derive(Default)]
pub struct Findings {
    pub known: usize,
    pub broken: usize,
    pub lost: usize,
    pub private: usize,
    pub results: Vec<Value>,
}

impl Form {
    /// The form that these options ask for.
    pub fn of_options(json: bool, sarif: bool) -> Form {
        match (json, sarif) {
            (true, _) => Form::Json,
            (false, true) => Form::Sarif,
            (false, false) => Form::Text,
        }
    }
}

impl Shown {
    /// Refuses names of kinds that aren't known.
    pub fn check_kinds(&self) -> Result<(), Failure> {
        match self.kinds.iter().find(|name| !self.all_kinds.contains(&name.as_str())) {
            None => Ok(()),
            Some(name) => {
                let kinds = self.all_kinds.join(", ");
                Err(Failure::Argument(format!("bad argument: no kind is named {}; the kinds are: {}", name, kinds)))
            }
        }
    }
}

/// An object of JSON with the file as its first key, or where serde_json puts it. A text is an object without its file.
pub fn json_in_file(object: &Value, path: &Path) -> String {
    let file = path.to_string_lossy();
    match object {
        Value::String(text) => format!("{{\"file\":{},{}", Quoted(&file), text.strip_prefix('{').unwrap_or(text)),
        object => {
            let mut object = object.clone();
            object["file"] = json!(file);
            object.to_string()
        }
    }
}

/// Says something of a file on standard error. If that is closed, nobody can read it, so it doesn't matter that it
/// fails.
pub fn warn_of_file(path: &Path, what: &dyn fmt::Display) {
    let _ = writeln!(io::stderr(), "dwcheck-elf: {}: {}", shown_path(path), what);
}

/// The severity with a name.
fn severity_of_name(name: &str) -> Severity {
    let all = [Severity::RegisterLost, Severity::Private];
    all.into_iter().find(|severity| severity.to_string() == name).unwrap_or(Severity::BacktraceBroken)
}

impl Findings {
    /// Writes the findings of a file that are shown and aren't known, or keeps them for SARIF, and counts them.
    pub fn write(&mut self, out: &mut impl Write, path: &Path, findings: &[Finding], shown: &Shown) -> io::Result<()> {
        let mut known = shown.known.of(path);
        for finding in findings.iter().filter(|one| shown.kinds.is_empty() || shown.kinds.contains(&one.kind)) {
            let text = format!("{}: {}", shown_path(path), finding.text);
            if known.take(&Key::of(text.lines().next().unwrap_or(""), &shown.all_kinds)) {
                self.known += 1;
                continue;
            }
            self.count(severity_of_name(&finding.severity));
            match shown.form {
                Form::Text => writeln!(out, "{}{}", text, detail(&finding.details, "explained"))?,
                Form::Json => writeln!(out, "{}", json_in_file(&finding.details["json"], path))?,
                Form::Sarif => self.results.push(result_in_file(&finding.details["sarif"], path)),
            }
        }
        Ok(())
    }

    fn count(&mut self, severity: Severity) {
        match severity {
            Severity::BacktraceBroken => self.broken += 1,
            Severity::RegisterLost => self.lost += 1,
            Severity::Private => self.private += 1,
        }
    }

    /// How many they are, without those that are known.
    pub fn total(&self) -> usize {
        self.broken + self.lost + self.private
    }

    /// How a run ends that has these findings, and in which some files couldn't be read.
    pub fn done(&self, unread: usize) -> Done {
        match (unread, self.total()) {
            (0, 0) => Done::Accepted,
            (0, _) => Done::Refused,
            _ => Done::Unread,
        }
    }
}
