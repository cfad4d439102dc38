//! The page of `profile --format html`: its script is run by node, without a browser. bench/elf/profile_page.py uses it
//! in one.

use crate::common::recordings::{Recording, X86};
use crate::common::run::dwcheck_elf_words;
use crate::common::Folder;
use serde_json::{json, Value};
use std::path::PathBuf;
use std::process::Command;

/// The number of the records that say how many were lost.
const LOST: u32 = 2;

fn recordings() -> PathBuf {
    PathBuf::from(env!("CARGO_MANIFEST_DIR")).join("tests/recordings")
}

/// What these lines, which use the page of a recording of spin.c, put into `said`. `None` if node isn't installed.
fn said(folder: &Folder, lines: &str) -> Option<Value> {
    let (root, file) = (recordings(), recordings().join("dwarf.perf"));
    let [root, file] = [&root, &file].map(|path| path.to_str().unwrap());
    let words = ["profile", "--quiet", "--root", root, "--format", "html", "-o", "page.html", file];
    let ran = dwcheck_elf_words(folder, &words);
    assert_eq!(ran.status, 0, "{}", ran.error);
    said_by(folder, lines)
}

/// The same of the page that is in the file `page.html`.
fn said_by(folder: &Folder, lines: &str) -> Option<Value> {
    said_at(folder, lines, "")
}

/// The same of the page with this part of its address.
fn said_at(folder: &Folder, lines: &str, hash: &str) -> Option<Value> {
    if Command::new("node").arg("--version").output().is_err() {
        eprintln!("not run: node isn't installed");
        return None;
    }
    folder.write("lines.js", lines);
    let script = PathBuf::from(env!("CARGO_MANIFEST_DIR")).join("tests/all/common/page.js");
    let line = format!("node {} page.html lines.js '{}'", script.display(), hash);
    Some(serde_json::from_str(&folder.run(&line)).unwrap())
}

/// Types into the page's search, and says what was found.
const SEARCH: &str = "
const typed = text => {
  at('search').value = text;
  at('search').dispatchEvent({ type: 'input' });
  return at('found').textContent;
};
";

#[test]
fn a_pattern_that_is_not_finished_finds_nothing() {
    let folder = Folder::new("profile-page-pattern");
    let lines = "said.all = ['leaf', '/l[ea/', '/l[ea]+f/', '/(/', ''].map(typed);";
    if let Some(said) = said(&folder, &[SEARCH, lines].concat()) {
        let all = ["found in 100.00%", "not a pattern", "found in 100.00%", "not a pattern", ""];
        assert_eq!(said["all"], Value::from(all.to_vec()));
    }
}

#[test]
fn keys_begin_and_end_a_search() {
    let folder = Folder::new("profile-page-keys");
    let lines = "
const press = (key, ctrlKey) => {
  let isTaken = false;
  window.dispatchEvent({ type: 'keydown', key, ctrlKey, preventDefault: () => { isTaken = true; } });
  return isTaken;
};
const isFocused = () => document.activeElement === at('search');
said.plain = [press('f', false), isFocused()];
said.first = [press('f', true), isFocused(), at('search').isSelected];
said.second = [press('f', true), isFocused()];
said.found = typed('leaf');
press('Escape', false);
said.ended = [isFocused(), at('search').value, at('found').textContent];
";
    if let Some(said) = said(&folder, &[SEARCH, lines].concat()) {
        assert_eq!(said["plain"], json!([false, false]));
        assert_eq!(said["first"], json!([true, true, true]));
        assert_eq!(said["second"], json!([false, true]));
        assert_eq!(said["found"], "found in 100.00%");
        assert_eq!(said["ended"], json!([false, "", ""]));
    }
}

#[test]
fn the_page_says_what_is_missing() {
    let folder = Folder::new("profile-page-missing");
    let mut recording = Recording::new(false);
    // The event, how many, the thread and the time.
    recording.record(LOST, 0, &[0, 1234, 5 << 32 | 5, 1].map(u64::to_le_bytes).concat());
    recording.comm(5, 1, false, b"x");
    let registers = vec![0x1000; X86.count_ones() as usize];
    recording.sample(5, 10, 0x1000, &registers, &[0; 8]);
    folder.write("made.perf", recording.file(X86, "x86_64"));
    let ran = dwcheck_elf_words(&folder, &["profile", "--format", "html", "-o", "page.html", "made.perf"]);
    assert_eq!((ran.status, ran.error.as_str()), (0, "samples 1 frames 1 truncated 0 lost 1234\n"));
    let line = "said.missing = at('missing').textContent;";
    if let Some(said) = said_by(&folder, line) {
        assert_eq!(said["missing"], "1,234 records are lost");
    }
    let page = String::from_utf8(folder.bytes("page.html")).unwrap();
    folder.write("page.html", page.replace("\"truncated\":0,", "\"truncated\":3,"));
    if let Some(said) = said_by(&folder, line) {
        assert_eq!(said["missing"], "3 stacks are truncated, 1,234 records are lost");
    }
    if let Some(said) = said(&folder, line) {
        assert_eq!(said["missing"], "");
    }
}

/// Uses the page, and says what is drawn and what is chosen.
const USED: &str = "
const names = () => boxes.map(([, , , node]) => label(node));
const choose = (id, value) => { at(id).value = value; at(id).dispatchEvent({ type: 'change' }); };
const click = name => {
  const [x, y] = boxes.find(([, , , node]) => label(node) === name);
  at('stacks').dispatchEvent({ type: 'click', clientX: x + 1, clientY: y + 1 });
};
const state = () => [names(), view.focus && label(view.focus), at('search').value, at('inverted').checked, view.thread];
";

#[test]
fn a_link_to_the_page_shows_the_same() {
    let folder = Folder::new("profile-page-link");
    let lines = "
at('inverted').checked = true;
at('inverted').dispatchEvent({ type: 'change' });
choose('thread', '0');
typed('le');
click('twice');
said.hash = window.location.hash;
said.state = state();
";
    let first = match said(&folder, &[SEARCH, USED, lines].concat()) {
        Some(first) => first,
        None => return,
    };
    assert_eq!(first["state"][1], "twice");
    let hash = first["hash"].as_str().unwrap();
    let again = [SEARCH, USED, "said.state = state(); said.hash = window.location.hash;"].concat();
    assert_eq!(said_at(&folder, &again, hash).unwrap(), json!({ "state": first["state"], "hash": hash }));
    // What isn't in the page isn't shown.
    let other = said_at(&folder, &again, "#zoom=nobody&event=7&time=9,3&thread=x&side=old").unwrap();
    assert_eq!(other["state"][1], 0);
}

/// As `--focus` says them: `leaf` is always called by `twice`, which is called by `middle`.
#[test]
fn a_zoom_shows_callers_and_what_is_called() {
    let folder = Folder::new("profile-page-beside");
    let lines = "
const shows = () => [at('beside').hidden, (at('beside').children ?? []).map(part => part.textContent)];
said.first = shows();
click('twice');
said.zoomed = shows();
at('beside').children.find(part => part.textContent.startsWith('leaf')).click();
said.leaf = [label(view.focus), shows()[1]];
click('all');
said.all = shows();
";
    if let Some(said) = said(&folder, &[USED, lines].concat()) {
        assert_eq!((&said["first"], &said["all"]), (&json!([true, []]), &json!([true, []])));
        let twice = ["twice ", "called by: ", "middle 100.00%", " calls: ", "leaf 100.00%"];
        assert_eq!(said["zoomed"], json!([false, twice]));
        let leaf = ["leaf ", "called by: ", "twice 100.00%", " calls: ", "none 100.00%"];
        assert_eq!(said["leaf"], json!(["leaf", leaf]));
    }
}

/// What the samples of an event weigh together, by perf's lines.
fn weight(script: &str, event: &str) -> u64 {
    let script = std::fs::read_to_string(recordings().join(script)).unwrap();
    let heads = script.lines().filter(|line| line.starts_with("spin") && line.contains(event));
    heads.map(|head| head.split_whitespace().nth(3).unwrap().parse::<u64>().unwrap()).sum()
}

#[test]
fn each_event_can_be_chosen() {
    let folder = Folder::new("profile-page-events");
    let [root, file] = [recordings(), recordings().join("two.perf")].map(|path| path.to_str().unwrap().to_string());
    let words = ["profile", "--root", &root, "--format", "html", "-o", "page.html", &file];
    let ran = dwcheck_elf_words(&folder, &words);
    assert!(ran.status == 0 && !ran.error.contains("--event"), "{:?}", ran);
    let lines = "
said.names = data.events.map(event => event.name);
said.first = shown.total[0];
choose('event', '1');
said.second = shown.total[0];
";
    if let Some(said) = said_by(&folder, &[USED, lines].concat()) {
        assert_eq!(said["names"], json!(["cpu-clock:u", "task-clock:u"]));
        let weights = ["cpu-clock:u", "task-clock:u"].map(|event| weight("two.script", event));
        assert_eq!((&said["first"], &said["second"]), (&json!(weights[0]), &json!(weights[1])));
    }
}

/// The second recording has no stacks, only the functions that ran. Both weigh what perf says.
#[test]
fn two_recordings_are_compared() {
    let folder = Folder::new("profile-compared");
    let paths = [recordings(), recordings().join("dwarf.perf"), recordings().join("chain.perf")];
    let [root, old, new] = paths.map(|path| path.to_str().unwrap().to_string());
    let run = |words: &[&str]| {
        let all = ["profile", "--quiet", "--root", &root, "--compare", &old, &new];
        dwcheck_elf_words(&folder, &[&all[..], words].concat())
    };
    let weights = ["dwarf.script", "chain.script"].map(|script| weight(script, "cpu-clock:u"));
    // The names of threads, which may be those of two builds, aren't compared.
    let folded = format!("_start;main;middle;twice;leaf {} 0\nleaf 0 {}\n", weights[0], weights[1]);
    assert_eq!(run(&[]).out, folded);
    let top = run(&["--format", "top", "--rows", "1"]).out;
    let rows: Vec<Vec<&str>> = top.lines().map(|line| line.split_whitespace().collect()).collect();
    assert_eq!(rows[0][6..], ["cpu-clock:u", &weights[0].to_string(), &weights[1].to_string()]);
    assert_eq!(rows[1], ["0.00%", "0.00%", "+0.00%", "100.00%", "0.00%", "-100.00%", "_start", "(spin)"]);
    assert_eq!(run(&["--format", "html", "-o", "page.html"]).status, 0);
    let lines = "
const tips = () => boxes.map(([, , , node]) => described(node).split('\\n').pop().split(';')[0]);
said.new = [names(), tips()];
choose('side', 'old');
said.old = [names(), tips().pop()];
";
    if let Some(said) = said_by(&folder, &[USED, lines].concat()) {
        let all = "all: 100.00% before, 100.00% now (+0.00)";
        assert_eq!(said["new"], json!([["all", "leaf"], [all, "0.00% before, 100.00% now (+100.00)"]]));
        let names = ["all", "_start", "main", "middle", "twice", "leaf"];
        assert_eq!(said["old"], json!([names, "100.00% before, 0.00% now (-100.00)"]));
    }
    let refused = run(&["--format", "pprof"]);
    assert_eq!((refused.status, refused.out.as_str()), (2, ""));
    let same = dwcheck_elf_words(&folder, &["profile", "--compare", "page.html", &new, "-o", "page.html"]);
    assert!(same.status == 2 && same.error.contains("would overwrite page.html"), "{:?}", same);
}
