//! Tests of how this crate is built up: a part uses only what its head says, no module uses itself by way of others,
//! and the modules that are public are those that the README lists.

use std::collections::{BTreeMap, BTreeSet};
use std::fs;
use std::path::{Path, PathBuf};

/// Each part, and the parts that it may use.
const PARTS: [(&str, &[&str]); 5] = [
    ("elf", &[]),
    ("cfi", &["elf"]),
    ("debug", &["elf", "cfi"]),
    ("check", &["elf", "cfi", "debug"]),
    ("process", &["elf", "cfi", "debug"]),
];

/// The modules that each module uses. A module is named by its part too, such as `elf::program`, and what is below it
/// counts as it.
type Uses = BTreeMap<String, BTreeSet<String>>;

/// All files of Rust in a folder and those below it.
fn files(folder: &Path) -> Vec<PathBuf> {
    let entries = fs::read_dir(folder).expect("a folder of sources").map(|entry| entry.expect("an entry").path());
    let below = entries.flat_map(|path| if path.is_dir() { files(&path) } else { vec![path] });
    below.filter(|path| path.extension().map_or(false, |ending| ending == "rs")).collect()
}

/// The name at the beginning of a text.
fn name(text: &str) -> &str {
    let end = text.find(|c: char| !c.is_alphanumeric() && c != '_').unwrap_or(text.len());
    &text[..end]
}

/// The modules that a line of a module uses. A line that isn't indented may call the part of a module `super`, if the
/// module is one file.
fn used(line: &str, part: &str) -> Vec<String> {
    let code = line.split("//").next().unwrap_or("");
    let paths = code
        .split("crate::")
        .skip(1)
        .map(|path| (name(path), path.split_once("::").map_or("", |(_, rest)| name(rest))));
    let beside = code.split_once("use super::").filter(|_| !part.is_empty() && !code.starts_with(' '));
    let beside = beside.map(|(_, rest)| (part, name(rest)));
    let all = paths.chain(beside).filter(|(part, _)| PARTS.iter().any(|(known, _)| known == part));
    all.map(|(part, module)| format!("{}::{}", part, module)).collect()
}

/// What the modules of this crate use.
fn uses() -> Uses {
    let source = Path::new(env!("CARGO_MANIFEST_DIR")).join("src");
    let mut uses = Uses::new();
    for (part, _) in PARTS {
        for file in files(&source.join(part)) {
            let inside = file.strip_prefix(source.join(part)).expect("a file of the part").with_extension("");
            let mut names = inside.iter().map(|name| name.to_str().expect("a name in ASCII"));
            let module = format!("{}::{}", part, names.next().expect("a name"));
            let part_of_file = if names.next().is_none() { part } else { "" };
            let text = fs::read_to_string(&file).expect("a text");
            let found = text.lines().flat_map(|line| used(line, part_of_file)).filter(|used| *used != module);
            uses.entry(module.clone()).or_default().extend(found);
        }
    }
    uses
}

/// Modules each of which uses the next one, and the last one the first one, if there are any.
fn cycle(uses: &Uses) -> Option<Vec<String>> {
    let mut left = uses.clone();
    // What uses nothing that is left is in no cycle.
    while let Some(last) = left.iter().find(|(_, used)| used.iter().all(|used| !left.contains_key(used))) {
        let last = last.0.clone();
        left.remove(&last);
    }
    let mut path = vec![left.keys().next()?.clone()];
    loop {
        let next = left[path.last()?].iter().find(|used| left.contains_key(*used))?.clone();
        match path.iter().position(|module| *module == next) {
            Some(begin) => return Some(path.split_off(begin)),
            None => path.push(next),
        }
    }
}

/// The modules that `lib.rs` makes public, but for the hidden one.
fn public() -> BTreeSet<String> {
    let text = fs::read_to_string(Path::new(env!("CARGO_MANIFEST_DIR")).join("src/lib.rs")).expect("lib.rs");
    let reexported =
        text.lines().filter_map(|line| line.strip_prefix("pub use ")?.split_once('{')).map(|(_, rest)| rest);
    let reexported = reexported.flat_map(|names| names.trim_end_matches("};").split(", "));
    let own = text.lines().filter_map(|line| line.strip_prefix("pub mod ")).map(name);
    reexported.chain(own).filter(|module| *module != "internal").map(str::to_string).collect()
}

/// The modules in the README's table.
fn listed() -> BTreeSet<String> {
    let text = fs::read_to_string(Path::new(env!("CARGO_MANIFEST_DIR")).join("README.md")).expect("README.md");
    let (_, table) = text.split_once("| Part | Module | What it does |").expect("a table of modules");
    let rows = table.lines().skip(1).take_while(|line| line.starts_with('|'));
    let cells = rows.filter_map(|row| row.split(" | ").nth(1).filter(|cell| cell.contains('`')));
    cells.flat_map(|cell| cell.split('`').skip(1).step_by(2)).map(str::to_string).collect()
}

fn graph(edges: &[(&str, &[&str])]) -> Uses {
    let set = |used: &[&str]| used.iter().map(|used| used.to_string()).collect();
    edges.iter().map(|(module, used)| (module.to_string(), set(used))).collect()
}

#[test]
fn no_module_uses_itself_by_way_of_others() {
    assert_eq!(cycle(&uses()), None);
    assert_eq!(cycle(&graph(&[("a", &["b", "c"]), ("b", &["c"]), ("c", &[])])), None);
    let found = cycle(&graph(&[("a", &["b"]), ("b", &["c"]), ("c", &["d"]), ("d", &["b"])]));
    assert_eq!(found, Some(["b", "c", "d"].map(str::to_string).to_vec()));
}

#[test]
fn a_part_uses_only_what_its_head_says() {
    let uses = uses();
    assert!(uses.len() > 40, "{:?}", uses.keys());
    for (module, used) in uses {
        let part = name(&module);
        let (_, may) = PARTS.iter().find(|(known, _)| *known == part).expect("a part");
        for used in used {
            assert!(name(&used) == part || may.contains(&name(&used)), "{} uses {}", module, used);
        }
    }
}

#[test]
fn the_readme_lists_what_is_public() {
    assert!(public().len() > 20, "{:?}", public());
    assert_eq!(listed(), public());
}

#[test]
fn the_modules_that_a_line_uses() {
    assert_eq!(used("use crate::elf::format::{Format, Name};", "cfi"), ["elf::format"]);
    assert_eq!(used("    let one = crate::cfi::row::Row::default(); // crate::elf::plt", ""), ["cfi::row"]);
    assert_eq!(used("pub use super::maps::Map;", "process"), ["process::maps"]);
    assert_eq!(used("    use super::maps::Map;", "process"), [""; 0]);
    assert_eq!(used("use super::maps::Map;", ""), [""; 0]);
}
