//! Stores: what is kept stands there, once, whoever writes it, and what is no store is refused in a line.

use dwcheck_store::{
    Answer, Change, Content, Counts, Digest, Finding, Format, Listing, Outcome, Package, Place, Question, SeenFile,
    Stamp, Store,
};
use serde_json::{json, Value};
use std::fs;
use std::path::{Path, PathBuf};
use std::process::Command;
use std::sync::atomic::{AtomicUsize, Ordering};
use std::thread;
use std::time::{Duration, SystemTime};

static FOLDERS: AtomicUsize = AtomicUsize::new(0);

/// A temporary folder, which is removed at the end.
struct Folder(PathBuf);

impl Folder {
    fn new() -> Folder {
        let name = format!("dwcheck-store-{}-{}", std::process::id(), FOLDERS.fetch_add(1, Ordering::Relaxed));
        let folder = std::env::temp_dir().join(name);
        fs::create_dir_all(&folder).unwrap();
        Folder(folder.canonicalize().unwrap())
    }

    fn file(&self, name: &str) -> PathBuf {
        self.0.join(name)
    }
}

impl Drop for Folder {
    fn drop(&mut self) {
        let _ = fs::remove_dir_all(&self.0);
    }
}

/// What the program `sqlite3` prints for a statement.
fn sqlite3(store: &Path, statement: &str) -> String {
    let output = Command::new("sqlite3").arg(store).arg(statement).output().unwrap();
    assert!(output.status.success(), "{}", String::from_utf8_lossy(&output.stderr));
    String::from_utf8(output.stdout).unwrap()
}

fn content(bytes: &[u8]) -> Content {
    let compiler = Some("GCC: (Debian 12.2.0-14) 12.2.0".to_string());
    Content { digest: Digest::of(bytes), bytes: bytes.len() as u64, build_id: Some("0bad".to_string()), compiler }
}

fn question(version: &str) -> Question {
    Question::new("lint", version, ["private".to_string(), "explain".to_string()], [])
}

fn finding(function: &str, address: &str) -> Finding {
    let text = format!("late push at {} ({}): register lost: \"rbx\", rbp", function, address);
    let function = Some(function.to_string());
    let (kind, severity) = ("late push".to_string(), "register lost".to_string());
    Finding { kind, severity, function, address: address.to_string(), text, details: Value::Null }
}

fn answer(findings: Vec<Finding>) -> Answer {
    let totals = vec![("fdes".to_string(), 3), ("judged".to_string(), u64::MAX)];
    Answer { outcome: Outcome::Read, findings, totals, details: json!({ "notes": ["one"] }) }
}

/// Notes that a file in a folder has one content, and keeps an answer for it.
fn keep_file(store: &mut Store, folder: &Folder, name: &str, bytes: &[u8], found: Vec<Finding>, package: Option<&str>) {
    let path = folder.file(name);
    fs::write(&path, bytes).unwrap();
    let stamp = Stamp::of(&path.metadata().unwrap());
    let package = package.map(|version| Package {
        name: "libuser".to_string(),
        version: version.to_string(),
        architecture: "amd64".to_string(),
        source: "user".to_string(),
    });
    let member = if package.is_some() { "usr/lib/libuser.so".to_string() } else { String::new() };
    let places = vec![Place { member, digest: Digest::of(bytes), bytes: bytes.len() as u64 }];
    let read = SystemTime::now() + Duration::from_secs(10);
    let file = SeenFile { path: path.clone(), stamp, read, package, places };
    store.note_listing(&Listing { roots: vec![path.clone()], all: vec![(path, stamp)], read: vec![file] }).unwrap();
    store.keep(&content(bytes), &question("2.0.0"), &answer(found)).unwrap();
}

fn export(store: &Store, format: Format) -> String {
    let mut out = Vec::new();
    store.export(format, &mut out).unwrap();
    String::from_utf8(out).unwrap()
}

#[test]
fn an_answer_stands_for_its_content_its_question_and_its_version() {
    let folder = Folder::new();
    let mut store = Store::open(&folder.file("s")).unwrap();
    let (kept, digest) = (answer(vec![finding("main", "0x1139")]), Digest::of(b"a"));
    store.keep(&content(b"a"), &question("2.0.0"), &kept).unwrap();
    assert_eq!(store.answer(digest, &question("2.0.0")).unwrap(), Some(kept.clone()));
    assert_eq!(store.answer(digest, &question("2.0.1")).unwrap(), None);
    assert_eq!(store.answer(digest, &Question::new("lint", "2.0.0", [], [])).unwrap(), None);
    assert_eq!(store.answer(Digest::of(b"b"), &question("2.0.0")).unwrap(), None);
    let options = ["explain".to_string(), "private".to_string()];
    let named = Question::new("lint", "2.0.0", options, ["names=1".to_string()]);
    assert_eq!(store.answer(digest, &named).unwrap(), None);
    assert_eq!(store.answer_of_any_inputs(digest, &named).unwrap(), Some((kept.clone(), String::new())));
    store.keep(&content(b"a"), &named, &kept).unwrap();
    assert_eq!(store.answer(digest, &question("2.0.0")).unwrap(), None);
    let with_inputs = store.answer_of_any_inputs(digest, &question("2.0.0")).unwrap();
    assert_eq!(with_inputs, Some((kept, "names=1".to_string())));
    assert_eq!(store.answer_of_any_inputs(digest, &question("2.0.1")).unwrap(), None);
    store.keep(&content(b"a"), &question("2.0.1"), &answer(Vec::new())).unwrap();
    let counts = "SELECT (SELECT count(*) FROM answer), (SELECT count(*) FROM finding), (SELECT count(*) FROM total)";
    assert_eq!(sqlite3(&folder.file("s"), counts), "1|0|2\n");
    assert_eq!(sqlite3(&folder.file("s"), "SELECT options FROM question"), "explain private\n");
    assert_eq!(sqlite3(&folder.file("s"), "PRAGMA integrity_check; PRAGMA foreign_key_check"), "ok\n");
}

#[test]
fn many_writers_of_a_new_store_lose_and_double_nothing() {
    let folder = Folder::new();
    let path = folder.file("s");
    let write = &|number: u32| {
        let mut store = Store::open(&path).unwrap();
        // Half of the contents are those of the next writer too.
        (number * 10..number * 10 + 20).for_each(|one| {
            let found = answer(vec![finding("f", "0x1"), finding("g", "0x2")]);
            store.keep(&content(&one.to_le_bytes()), &question("1"), &found).unwrap();
        });
    };
    thread::scope(|scope| {
        (0..8).for_each(|number| {
            scope.spawn(move || write(number));
        });
    });
    let counts = "SELECT (SELECT count(*) FROM content), (SELECT count(*) FROM answer), (SELECT count(*) FROM finding)";
    assert_eq!(sqlite3(&path, counts), "90|90|180\n");
}

/// Whether a thread opens a store while another makes its tables is chance, so this is done often.
#[test]
fn those_who_open_a_new_store_at_once_all_open_it() {
    let folder = Folder::new();
    for number in 0..50 {
        let path = folder.file(&number.to_string());
        let open = &|| Store::open(&path).map(drop).unwrap();
        thread::scope(|scope| {
            (0..8).for_each(|_| {
                scope.spawn(open);
            });
        });
    }
}

#[test]
fn a_changed_or_removed_file_is_forgotten_and_others_are_not() {
    let folder = Folder::new();
    let mut store = Store::open(&folder.file("s")).unwrap();
    keep_file(&mut store, &folder, "one", b"1", Vec::new(), None);
    keep_file(&mut store, &folder, "two", b"2", Vec::new(), None);
    let stamp = |name: &str| Stamp::of(&folder.file(name).metadata().unwrap());
    let known = |store: &Store, name: &str| {
        let stamps = store.stamps().unwrap();
        stamps.places(&folder.file(name), &stamp(name)).map(|places| places[0].digest)
    };
    assert_eq!((known(&store, "one"), known(&store, "two")), (Some(Digest::of(b"1")), Some(Digest::of(b"2"))));
    fs::write(folder.file("one"), b"changed").unwrap();
    assert_eq!(known(&store, "one"), None);
    let all = vec![(folder.file("one"), stamp("one")), (folder.file("two"), stamp("two"))];
    store.note_listing(&Listing { roots: vec![folder.0.clone()], all, read: Vec::new() }).unwrap();
    assert_eq!(sqlite3(&folder.file("s"), "SELECT count(*) FROM file WHERE path LIKE '%/two'"), "1\n");
    assert_eq!(sqlite3(&folder.file("s"), "SELECT count(*) FROM file, place"), "1\n");
}

#[test]
fn stores_joined_in_any_order_export_the_same_bytes() {
    let folder = Folder::new();
    let contents: [&[u8]; 4] = [b"a", b"b", b"c", b"d"];
    let mut whole = Store::open(&folder.file("whole")).unwrap();
    let mut parts = [Store::open(&folder.file("1")).unwrap(), Store::open(&folder.file("2")).unwrap()];
    for (number, bytes) in contents.into_iter().enumerate() {
        let found = vec![finding("main", "0x1139"), finding("other", "0x1200")];
        keep_file(&mut whole, &folder, &format!("file{}", number), bytes, found.clone(), None);
        keep_file(&mut parts[number % 2], &folder, &format!("file{}", number), bytes, found, None);
    }
    let joined = |name: &str, order: [usize; 3]| {
        let mut store = Store::open(&folder.file(name)).unwrap();
        order.iter().for_each(|part| store.merge(&parts[*part]).unwrap());
        (export(&store, Format::JsonLines), export(&store, Format::Csv))
    };
    let expected = (export(&whole, Format::JsonLines), export(&whole, Format::Csv));
    assert_eq!((expected.0.lines().count(), expected.1.lines().count()), (4, 9));
    assert_eq!(joined("forward", [0, 1, 0]), expected);
    assert_eq!(joined("backward", [1, 0, 1]), expected);
    // The cell has quotes and a comma (RFC 4180).
    let cell = "\"late push at main (0x1139): register lost: \"\"rbx\"\", rbp\"";
    assert!(expected.1.contains(cell), "{}", expected.1);
}

#[test]
fn of_two_versions_the_later_one_stays() {
    let folder = Folder::new();
    let store = |name: &str, version: &str| {
        let mut store = Store::open(&folder.file(name)).unwrap();
        store.keep(&content(b"a"), &question(version), &answer(Vec::new())).unwrap();
        store
    };
    let (older, later) = (store("older", "2.9.0"), store("later", "2.10.0"));
    let versions = |name: &str, order: [&Store; 2]| {
        let mut all = Store::open(&folder.file(name)).unwrap();
        order.iter().for_each(|one| all.merge(one).unwrap());
        sqlite3(all.path(), "SELECT version FROM answer")
    };
    assert_eq!(versions("forward", [&older, &later]), "2.10.0\n");
    assert_eq!(versions("backward", [&later, &older]), "2.10.0\n");
}

#[test]
fn findings_that_are_new_gone_and_moved() {
    let folder = Folder::new();
    let (mut old, mut new) = (Store::open(&folder.file("old")).unwrap(), Store::open(&folder.file("new")).unwrap());
    let before = vec![finding("same", "0x10"), finding("moved", "0x20"), finding("gone", "0x30")];
    let after = vec![finding("same", "0x10"), finding("moved", "0x28"), finding("added", "0x40")];
    keep_file(&mut old, &folder, "user_1.deb", b"1", before.clone(), Some("1.0"));
    keep_file(&mut new, &folder, "user_2.deb", b"2", after, Some("1.1"));
    keep_file(&mut old, &folder, "program", b"3", before, None);
    let mut seen = Vec::new();
    let changes = old.diff(&new, |change, located| {
        seen.push((change.clone(), located.package.clone(), located.function.clone().unwrap()));
        Ok(())
    });
    let changes = changes.unwrap();
    let gone = |package: &str, name: &str| (Change::Gone, package.to_string(), name.to_string());
    let moved = Change::Moved { file: "usr/lib/libuser.so".to_string(), address: "0x20".to_string() };
    let package = "libuser:amd64".to_string();
    let expected = vec![
        gone("", "same"),
        gone("", "moved"),
        gone("", "gone"),
        (Change::New, package.clone(), "added".to_string()),
        (moved, package.clone(), "moved".to_string()),
        gone(&package, "gone"),
    ];
    assert_eq!(seen, expected);
    assert_eq!(changes.total, Counts { new: 1, gone: 4, moved: 1 });
    assert_eq!(changes.packages[&package], Counts { new: 1, gone: 1, moved: 1 });
    assert_eq!(changes.compilers.len(), 1);
}

#[test]
fn what_is_no_store_of_this_version_is_refused_in_a_line_and_left_as_it_is() {
    let folder = Folder::new();
    let path = |name: &str| folder.file(name);
    Store::open(&path("newer")).unwrap();
    sqlite3(&path("newer"), "PRAGMA user_version = 7");
    sqlite3(&path("other"), "CREATE TABLE content (id)");
    let noise: Vec<u8> = (0..9_000_u32).map(|number| (number.wrapping_mul(2_654_435_761) >> 13) as u8).collect();
    fs::write(path("noise"), noise).unwrap();
    let newer = "its schema has version 7, and this dwcheck-elf knows versions up to 1";
    let not_store = "not a store of dwcheck-elf";
    for (name, expected) in [("newer", newer), ("other", not_store), ("noise", not_store)] {
        let before = fs::read(path(name)).unwrap();
        assert_eq!(Store::open(&path(name)).unwrap_err().to_string(), expected);
        assert_eq!(Store::open_existing(&path(name)).unwrap_err().to_string(), expected);
        assert!(fs::read(path(name)).unwrap() == before, "{} was changed", name);
    }
    let missing = Store::open_existing(&path("missing")).unwrap_err();
    assert_eq!((missing.store(), path("missing").exists()), (path("missing").as_path(), false));
}

/// Of a store in which bytes are changed, each call gives an answer or an error of one line.
#[test]
fn damaged_stores_give_answers_or_errors() {
    let folder = Folder::new();
    let mut store = Store::open(&folder.file("s")).unwrap();
    keep_file(&mut store, &folder, "one", b"1", vec![finding("f", "0x1")], None);
    drop(store);
    let whole = fs::read(folder.file("s")).unwrap();
    let mut errors = 0;
    for (number, at) in (0..whole.len()).step_by(211).enumerate() {
        let mut bytes = whole.clone();
        let end = bytes.len().min(at + 16);
        bytes[at..end].fill(0xff);
        let path = folder.file(&format!("damaged{}", number));
        fs::write(&path, bytes).unwrap();
        let opened = Store::open(&path).and_then(|mut store| {
            store.answer(Digest::of(b"1"), &question("2.0.0"))?;
            store.stamps()?;
            store.export(Format::JsonLines, &mut Vec::new())?;
            store.keep(&content(b"2"), &question("1"), &answer(Vec::new()))
        });
        if let Err(error) = opened {
            assert_eq!(error.to_string().lines().count(), 1, "{}", error);
            errors += 1;
        }
        fs::remove_file(&path).unwrap();
    }
    assert!(errors > 0, "no damage was seen");
}
