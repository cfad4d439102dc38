//! Findings that are known: a baseline, so that a run shows only what is new.

use crate::end::{shown_path, Failure};
use crate::opened::open_elf;
use dwcheck_lint::finding::Severity;
use std::collections::HashMap;
use std::path::Path;

/// How a function without a name is shown.
pub const NAMELESS: &str = "a function without a name";

/// What a finding is known by: its kind, and its function or its address.
#[derive(Clone, Debug, PartialEq, Eq, Hash)]
pub struct Key {
    /// The kind's name.
    pub kind: String,
    /// The function's name, or the address if it has none.
    pub function: String,
}

/// Findings of an earlier run, by the name of their file without its folders.
#[derive(Debug, Default)]
pub struct Known(HashMap<String, Vec<Key>>);

/// Those of one file that haven't been found again yet.
pub struct Remaining(Vec<Key>);

impl Known {
    /// Reads the findings of kinds with these names in the output of an earlier run of a command, which has to be text.
    /// Other lines are passed over.
    fn read(path: &Path, command: &str, kinds: &[&str]) -> Result<Known, Failure> {
        let bytes = open_elf(path)?;
        if bytes.starts_with(b"{") {
            let reason = format!(
                "it is JSON; known findings are read from text, as {} writes it without --json and --sarif",
                command
            );
            return Err(Failure::File(format!("cannot read {}: {}", shown_path(path), reason)));
        }
        let mut known = Known::default();
        for line in String::from_utf8_lossy(&bytes).lines() {
            if let Some((file, key)) = parse_finding_line(line, kinds) {
                known.0.entry(file).or_default().push(key);
            }
        }
        Ok(known)
    }

    /// The findings in the file that a command was given, if any.
    pub fn of_run(path: Option<&Path>, command: &str, kinds: &[&str]) -> Result<Known, Failure> {
        path.map_or_else(|| Ok(Known::default()), |path| Known::read(path, command, kinds))
    }

    /// Those of a file.
    pub fn of(&self, path: &Path) -> Remaining {
        let name = path.file_name().map(|name| name.to_string_lossy().into_owned());
        Remaining(name.and_then(|name| self.0.get(&name)).cloned().unwrap_or_default())
    }
}

impl Remaining {
    /// Takes a finding out, if it is there.
    pub fn take(&mut self, key: &Key) -> bool {
        let place = self.0.iter().position(|known| known == key);
        place.map(|place| self.0.swap_remove(place)).is_some()
    }
}

/// The file's name and the key in the first line of a finding:
/// `FILE: KIND at FUNCTION+0x4 (0x1234): SEVERITY: ..`. In an unlinked object a section and an offset are
/// in parentheses.
fn parse_finding_line(line: &str, kinds: &[&str]) -> Option<(String, Key)> {
    let found = kinds.iter().find_map(|kind| Some((*kind, line.split_once(&format!(": {} at ", kind))?)));
    let (kind, (path, rest)) = found?;
    let severities = [Severity::BacktraceBroken, Severity::RegisterLost, Severity::Private];
    let until = severities.iter().find_map(|severity| Some(rest.split_once(&format!("): {}: ", severity))?.0))?;
    let (name, place) = until.rsplit_once(" (")?;
    let file = Path::new(path).file_name()?.to_string_lossy().into_owned();
    Some((file, Key { kind: kind.to_string(), function: function_of_finding(name, place) }))
}

/// The name without its offset, or the place if there is no name.
fn function_of_finding(name: &str, place: &str) -> String {
    match name {
        NAMELESS => place.to_string(),
        name => without_offset(name).to_string(),
    }
}

/// The name of a function without the offset after it.
pub fn without_offset(name: &str) -> &str {
    name.rsplit_once("+0x").map_or(name, |(name, _)| name)
}

impl Key {
    /// The key of the finding, of a kind with one of these names, whose first line this is.
    pub fn of(line: &str, kinds: &[&str]) -> Key {
        let nothing = || Key { kind: String::new(), function: String::new() };
        parse_finding_line(line, kinds).map_or_else(nothing, |(_, key)| key)
    }
}
