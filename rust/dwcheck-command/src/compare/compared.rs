//! Compares the tables of one file.

use super::finding::File;
use crate::files::map_file;
use crate::inquiry::{unread, Inquiry, Subject};
use dwcheck_elf::compare::{compare, Compared, HeaderPair, Others, Pair};
use dwcheck_elf::debug_files::DebugFiles;
use dwcheck_elf::functions::Functions;
use dwcheck_elf::lines::Lines;
use dwcheck_elf::lint::LintError;
use dwcheck_elf::mapped::Bytes;
use dwcheck_elf::program::Program;
use dwcheck_store::{self as store, Answer, Digest, Outcome};
use dwcheck_symbols::{debug_id, Identity};
use serde_json::{json, Value};
use std::io;
use std::path::{Path, PathBuf};

/// What is asked of each file.
pub struct Asked {
    /// Whether the separate file of debug information is read.
    pub has_separate: bool,
    /// The store in which symbol files are, or the only one.
    pub symbols: Option<PathBuf>,
    /// Whether the source lines of findings are looked up.
    pub has_lines: bool,
}

/// The other files with tables of a program, and why others can't be used.
struct Beside<'f> {
    separate: Option<&'f Bytes>,
    symbols: Option<Bytes>,
    unused: Vec<String>,
}

impl Inquiry for Asked {
    fn command(&self) -> &'static str {
        "compare"
    }

    fn options(&self) -> Vec<String> {
        if self.has_lines {
            vec!["lines".to_string()]
        } else {
            Vec::new()
        }
    }

    fn looks_beside(&self) -> bool {
        true
    }

    fn inputs(&self, subject: &Subject<'_>, _: &Answer) -> Option<Vec<String>> {
        self.others(subject)
    }

    fn answer_to_keep(&self, subject: &Subject<'_>) -> (Answer, Option<Vec<String>>) {
        // A file that is replaced after this has another digest than the one that is kept.
        let inputs = self.others(subject);
        (self.answer(subject), inputs)
    }

    fn answer(&self, subject: &Subject<'_>) -> Answer {
        let program = match subject.program() {
            Ok(program) => program,
            Err(error) => return unread(error.to_string()),
        };
        let files = DebugFiles::default();
        let mut beside = self.beside(subject.path, &program, &files);
        let separate = beside.separate.and_then(|bytes| Program::read(bytes).ok());
        let others = Others { separate: separate.as_ref(), symbols: beside.symbols.as_deref() };
        let found = compare(&program, others, &|| program.functions());
        beside.unused.extend(found.unused.iter().cloned());
        let bytes = found.pairs.iter().map(|pair| pair.bytes).sum();
        let entries = found.header.as_ref().map_or(0, |header| header.fdes as u64);
        Answer {
            outcome: Outcome::Read,
            findings: if has_findings(&found) { self.findings(&program, &found) } else { Vec::new() },
            totals: vec![("bytes".to_string(), bytes), ("entries".to_string(), entries)],
            details: json!({ "notes": beside.unused, "pairs": compared_pairs(&found) }),
        }
    }
}

impl Asked {
    /// The other files of a program decide what is found, too. If one can't be used, that isn't kept.
    fn others(&self, subject: &Subject<'_>) -> Option<Vec<String>> {
        let program = match subject.program() {
            Ok(program) => program,
            Err(_) => return Some(Vec::new()),
        };
        let files = DebugFiles::default();
        let beside = self.beside(subject.path, &program, &files);
        let others = [("separate", beside.separate), ("symbols", beside.symbols.as_ref())];
        let named = others.into_iter().filter_map(|(name, bytes)| Some((name, Digest::of(bytes?))));
        let inputs = named.map(|(name, digest)| format!("{}={}", name, digest)).collect();
        beside.unused.is_empty().then(|| inputs)
    }

    fn beside<'f>(&self, path: &Path, program: &Program<'_>, files: &'f DebugFiles) -> Beside<'f> {
        let mut unused = Vec::new();
        let separate = if self.has_separate { separate_file(path, program, files, &mut unused) } else { None };
        let symbols = self.symbols.as_deref().and_then(|store| symbol_file(path, program, store, &mut unused));
        Beside { separate, symbols, unused }
    }

    fn findings(&self, program: &Program<'_>, found: &Compared) -> Vec<store::Finding> {
        let functions: Functions<'_> = program.functions();
        let image = program.image();
        let files = DebugFiles::default();
        let lines = self.has_lines.then(|| Lines::read(program, None, &files)).flatten();
        let machine = LintError::of(program).ok();
        let file = File { functions: &functions, image: &image, lines, machine, has_lines: self.has_lines };
        let of_header = found.header.iter().flat_map(|header| &header.differences);
        let mut all: Vec<_> = of_header.map(|one| file.header(one)).collect();
        for pair in &found.pairs {
            all.extend(pair.differences.iter().map(|one| file.difference(pair, one)));
        }
        all
    }
}

fn has_findings(found: &Compared) -> bool {
    let of_header = found.header.iter().any(|header| !header.differences.is_empty());
    of_header || found.pairs.iter().any(|pair| !pair.differences.is_empty())
}

/// The separate file of debug information of a program, if it has one.
fn separate_file<'f>(
    path: &Path,
    program: &Program<'_>,
    files: &'f DebugFiles,
    unused: &mut Vec<String>,
) -> Option<&'f Bytes> {
    // It is also found by the folder of the program.
    let whole = path.canonicalize().unwrap_or_else(|_| path.to_path_buf());
    let (file, why) = match files.find(&whole, program) {
        Ok(Some((file, bytes))) => match Program::read(bytes) {
            Ok(_) => return Some(bytes),
            Err(error) => (file, error.to_string()),
        },
        Ok(None) => return None,
        Err((file, why)) => (file, why.to_string()),
    };
    unused.push(format!("{}: {}", crate::end::shown_path(&file), why));
    None
}

/// The symbol file of a program, if it is in a store. A file that was given is that of the program.
fn symbol_file(path: &Path, program: &Program<'_>, store: &Path, unused: &mut Vec<String>) -> Option<Bytes> {
    let whole = path.canonicalize().unwrap_or_else(|_| path.to_path_buf());
    let found = if store.is_file() {
        store.to_path_buf()
    } else {
        let name = whole.file_name()?.to_string_lossy().into_owned();
        let (system, machine, id) = ("".into(), "".into(), debug_id(program.build_id()?).into());
        store.join(Identity { system, machine, id, name: name.into() }.path_in_store()?)
    };
    match map_file(&found) {
        Ok(bytes) => Some(bytes),
        Err(error) if error.kind() == io::ErrorKind::NotFound => None,
        Err(error) => {
            unused.push(format!("{}: {}", crate::end::shown_path(&found), error));
            None
        }
    }
}

/// What was compared, for each pair of tables: as a text and as an object of JSON, without the file.
fn compared_pairs(found: &Compared) -> Vec<Value> {
    let pairs = found.pairs.iter().map(|pair| json!({ "text": pair_text(pair), "json": pair_json(pair) }));
    let header = found.header.iter().map(|header| {
        json!({ "text": format!(".eh_frame and .eh_frame_hdr: fdes {}", header.fdes), "json": header_json(header) })
    });
    pairs.chain(header).collect()
}

fn pair_text(pair: &Pair) -> String {
    let [first, second] = &pair.tables;
    let [only_first, only_second] = pair.only;
    let mut text = format!("{} and {}: bytes {}", first, second, pair.bytes);
    let only = [(only_first, first), (only_second, second)];
    only.iter().filter(|(bytes, _)| *bytes > 0).for_each(|(bytes, name)| {
        text.push_str(&format!(" only-{} {}", name.word(), bytes));
    });
    pair.not_said.iter().for_each(|(why, bytes)| text.push_str(&format!(" {} {}", why, bytes)));
    if pair.both_right > 0 {
        text.push_str(&format!(" both-right {}", pair.both_right));
    }
    text
}

fn pair_json(pair: &Pair) -> Value {
    let not_said: Value = pair.not_said.iter().map(|(why, bytes)| (why.to_string(), json!(bytes))).collect();
    json!({
        "tables": [pair.tables[0].to_string(), pair.tables[1].to_string()],
        "bytes": pair.bytes,
        "only": pair.only,
        "both-right": pair.both_right,
        "not-said": not_said,
    })
}

fn header_json(header: &HeaderPair) -> Value {
    json!({ "tables": [".eh_frame", ".eh_frame_hdr"], "fdes": header.fdes })
}
