//! Lints one file: its findings, and how much of it was judged, as an answer.

use super::names::Names;
use super::sarif;
use crate::inquiry::{unread, Inquiry, Subject};
use crate::known::without_offset;
use dwcheck_elf::debug_files::DebugFiles;
use dwcheck_elf::fetch::Fetcher;
use dwcheck_elf::frames::Name;
use dwcheck_elf::functions::Functions;
use dwcheck_elf::lint::{LintError, Sections};
use dwcheck_elf::program::Program;
use dwcheck_elf::sframe::SframeSection;
use dwcheck_lint::coverage::Coverage;
use dwcheck_lint::explain::{explain, Line};
use dwcheck_lint::finding::{Finding, Severity};
use dwcheck_lint::finding_text::{Json, ShownAddress, Text};
use dwcheck_lint::lint::Lint;
use dwcheck_lint::module::Module;
use dwcheck_store::{self as store, Answer, Outcome};
use serde_json::{json, Map, Value};

/// How many lines of an explanation are shown before a change of what is wrong, and after it.
const AROUND: (usize, usize) = (4, 2);

/// What is asked of each file.
pub struct Asked {
    /// Whether registers are shown that functions never give back.
    pub has_private: bool,
    /// Whether the instructions around a finding are shown.
    pub is_explained: bool,
    /// Whether the source lines of findings are looked up.
    pub has_lines: bool,
    /// What fetches separate files of debug information that aren't here. It is no option of the question: which file
    /// gives the names decides the answer, and not where it was found.
    pub fetcher: Fetcher,
}

impl Inquiry for Asked {
    fn command(&self) -> &'static str {
        "lint"
    }

    fn options(&self) -> Vec<String> {
        let options = [("explain", self.is_explained), ("lines", self.has_lines), ("private", self.has_private)];
        let asked = options.into_iter().filter(|(_, is_asked)| *is_asked);
        asked.map(|(name, _)| name.to_string()).collect()
    }

    /// An answer without findings has no names, so that no other file is looked for, and no server is asked.
    fn inputs(&self, subject: &Subject<'_>, kept: &Answer) -> Option<Vec<String>> {
        if kept.findings.is_empty() {
            return Some(Vec::new());
        }
        let program = subject.program().ok()?;
        let (functions, files) = (Functions::default(), self.files());
        let names = Names::of(subject, &program, &functions, &files, self.has_lines);
        names.inputs()
    }

    fn answer(&self, subject: &Subject<'_>) -> Answer {
        self.answer_with_inputs(subject, |_| ()).0
    }

    fn answer_to_keep(&self, subject: &Subject<'_>) -> (Answer, Option<Vec<String>>) {
        let (answer, inputs) = self.answer_with_inputs(subject, |names| names.used_inputs());
        (answer, inputs.unwrap_or_else(|| Some(Vec::new())))
    }
}

impl Asked {
    /// Where separate files are looked for.
    fn files(&self) -> DebugFiles {
        DebugFiles::default().fetching(&self.fetcher)
    }

    /// Finds the answer, and what `inputs_of` says of the names in it, if the file could be judged.
    fn answer_with_inputs<T>(
        &self,
        subject: &Subject<'_>,
        inputs_of: impl FnOnce(&Names<'_>) -> T,
    ) -> (Answer, Option<T>) {
        let program = match subject.program() {
            Ok(program) => program,
            Err(error) => return (unread(error.to_string()), None),
        };
        let (functions, files) = (program.functions(), self.files());
        let names = Names::of(subject, &program, &functions, &files, self.has_lines);
        match LintError::of(&program).and_then(|_| self.judge(&program, &functions, &names)) {
            Ok(answer) => (answer, Some(inputs_of(&names))),
            Err(error) => (Answer { outcome: Outcome::Other, ..unread(error.to_string()) }, None),
        }
    }

    fn judge(&self, program: &Program<'_>, functions: &Functions<'_>, names: &Names<'_>) -> Result<Answer, LintError> {
        let sections = Sections::read(program);
        let module = sections.module(program, functions)?;
        let mut notes = sections.unused.clone();
        let (mut findings, mut judged, mut coverage) = (Vec::new(), Vec::new(), Coverage::default());
        let mut add = |module: &Module<'_>| {
            let file = File { module, names };
            let (found, counts) = file.judged(self);
            let named: Map<_, _> =
                counts.named().into_iter().map(|(name, count)| (name.to_string(), json!(count))).collect();
            judged.push(json!({ "table": module.table.as_deref(), "counts": named }));
            findings.extend(found);
            coverage.add(&counts);
        };
        add(&module);
        match SframeSection::read(program) {
            Ok(None) => {}
            Ok(Some(section)) => match section.check() {
                Ok(sframe) => sections.sframe_module(program, functions, &sframe).iter().for_each(&mut add),
                Err(error) => notes.push(format!("{}: {}", Name::Sframe, error)),
            },
            Err(error) => notes.push(error.to_string()),
        }
        notes.extend(names.problem());
        let totals = coverage.named().into_iter().map(|(name, count)| (name.to_string(), u64::from(count)));
        let (outcome, details) = (Outcome::Read, json!({ "notes": notes, "judged": judged }));
        Ok(Answer { outcome, findings, totals: totals.collect(), details })
    }
}

/// A file whose findings are described.
struct File<'a, 'm, 'n> {
    module: &'a Module<'m>,
    names: &'a Names<'n>,
}

impl<'m> File<'_, 'm, '_> {
    /// The findings, and what was judged.
    fn judged(&self, asked: &Asked) -> (Vec<store::Finding>, Coverage) {
        let mut lint = Lint::run(self.module);
        let report = lint.report();
        let is_shown = |finding: &&Finding<'_>| asked.has_private || finding.severity != Severity::Private;
        let findings = report.findings.iter().filter(is_shown).map(|finding| self.described(finding, &mut lint, asked));
        (findings.collect(), report.coverage)
    }

    fn described(&self, finding: &Finding<'m>, lint: &mut Lint<'m>, asked: &Asked) -> store::Finding {
        let names = |address| self.names.function(address);
        let address = finding.mark.address;
        let text = Text(self.module, finding, &names).to_string();
        let mut details = json!({ "json": Json(self.module, finding, &names).to_string() });
        if asked.is_explained {
            details["explained"] = json!(explained_lines(&explain(lint, finding.fde).unwrap_or_default()));
        }
        if asked.has_lines {
            details["sarif"] = self.result(finding, &text);
        }
        store::Finding {
            kind: finding.kind.to_string(),
            severity: finding.severity.to_string(),
            function: names(address).map(|name| without_offset(&name).to_string()),
            address: ShownAddress(self.module, address).to_string(),
            text,
            details,
        }
    }

    /// A finding, whose text this is, as a result of SARIF.
    fn result(&self, finding: &Finding<'m>, text: &str) -> Value {
        let address = finding.mark.address;
        let (function, line) = (self.names.function(address), self.names.line(address));
        sarif::finding_as_result(self.module, finding, text, function, line)
    }
}

/// The lines around each change of what is wrong. An exclamation mark is before each wrong row.
fn explained_lines(lines: &[Line]) -> String {
    let is_change = |at: usize| {
        let line = &lines[at];
        let before = at.checked_sub(1).map(|before| &lines[before]);
        let is_same = |before: &Line| {
            before.is_wrong == line.is_wrong
                && (!line.is_wrong || (&before.row, &before.code) == (&line.row, &line.code))
        };
        !before.map_or(!line.is_wrong, is_same)
    };
    let is_near = |at: usize| {
        let (before, after) = AROUND;
        (at.saturating_sub(after)..(at + before + 1).min(lines.len())).any(is_change)
    };
    let mut text = String::new();
    let mut has_gap = false;
    for (at, line) in lines.iter().enumerate() {
        if !is_near(at) {
            has_gap = true;
            continue;
        }
        if std::mem::take(&mut has_gap) {
            text.push_str("\n    ..");
        }
        let Line { place, instruction, row, code, is_wrong, .. } = line;
        let mark = if *is_wrong { '!' } else { ' ' };
        text.push_str(&format!("\n  {} {}: {:<36}  row: {}  code: {}", mark, place, instruction, row, code));
    }
    text
}
