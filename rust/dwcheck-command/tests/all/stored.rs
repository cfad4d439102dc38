//! Runs with `--store` and `--shard`, and the commands over stores: the output is that without a store, and what a store
//! has doesn't depend on who filled it, and when it was stopped.

use crate::common::run::{dwcheck_elf, Ran};
use crate::common::{Folder, C};
use serde_json::Value;
use std::process::{Command, Stdio};
use std::thread;
use std::time::Duration;

/// A function whose row follows its push too late: the lint finds that.
const LATE: &str = ".globl late\n.type late, @function\nlate: .cfi_startproc\n push %rbx\n nop\n nop\n \
                    .cfi_def_cfa_offset 16\n .cfi_offset 3, -16\n nop\n pop %rbx\n .cfi_def_cfa_offset 8\n ret\n \
                    .cfi_endproc\n.size late, .-late\n";

/// A folder `all` with programs that are accepted and linted, one that is refused, one of both tables that differ, and
/// a copy.
fn folder(name: &str) -> Folder {
    let folder = Folder::new(name);
    folder.write("a.c", C);
    folder.write("late.s", LATE);
    folder.write("bad.s", ".globl _start\n_start: .cfi_startproc\n nop\n .cfi_remember_state\n nop\n .cfi_endproc\n");
    folder.run("mkdir -p all/below && gcc -O2 -g a.c -o all/good && gcc -O1 -c a.c -o all/object.o");
    folder.run("as bad.s -o bad.o && ld bad.o -o all/below/bad && cp all/good all/below/copy && cp bad.s all/text");
    folder.run("as late.s -o late.o && gcc -shared -nostdlib late.o -o all/late.so");
    folder.run("printf '\\177ELF and no more' > all/broken");
    folder
}

fn same(one: &Ran, other: &Ran) {
    assert_eq!((one.status, &one.out, &one.error), (other.status, &other.out, &other.error));
}

fn sqlite3(folder: &Folder, store: &str, statement: &str) -> String {
    folder.run(&format!("sqlite3 {} \"{}\"", store, statement))
}

#[test]
fn the_output_with_a_store_is_that_without_one() {
    let folder = folder("store-same");
    let commands = [
        "survey all",
        "survey --json --all --lists all",
        "survey --sarif --notes all",
        "lint --jobs 2 all",
        "lint --json --private all",
        "lint --explain all",
        "lint --sarif all",
        "compare all all/good",
        "compare --json all",
        "compare --sarif all",
    ];
    for words in commands {
        let (command, rest) = words.split_once(' ').unwrap();
        let without = dwcheck_elf(&folder, words);
        let with = format!("{} --store kept {}", command, rest);
        same(&dwcheck_elf(&folder, &with), &without);
        same(&dwcheck_elf(&folder, &with), &without);
    }
    let digests = sqlite3(&folder, "kept", "SELECT DISTINCT lower(hex(sha256)) FROM content ORDER BY 1");
    let expected = folder.run("find all -type f ! -name text | xargs sha256sum | cut -d' ' -f1 | sort -u");
    assert_eq!(digests, expected);
}

#[test]
fn what_stands_in_a_store_is_not_done_again_until_the_content_changes() {
    let folder = folder("store-again");
    let lint = || dwcheck_elf(&folder, "lint --store kept all").out;
    let first = lint();
    assert!(first.contains("late push at late"), "{}", first);
    sqlite3(&folder, "kept", "UPDATE finding SET text = 'what stands there'");
    assert!(lint().contains("all/late.so: what stands there\n"));
    // A path makes no difference, but the version does.
    folder.run("mv all/late.so all/moved.so");
    assert!(lint().contains("all/moved.so: what stands there\n"));
    sqlite3(&folder, "kept", "UPDATE answer SET version = '0.0'");
    assert!(lint().contains("all/moved.so: late push at late"));
    folder.run("sed -i 's/late/tardy/g' late.s && as late.s -o late.o && gcc -shared -nostdlib late.o -o all/moved.so");
    assert!(lint().contains("all/moved.so: late push at tardy"));
    assert_eq!(sqlite3(&folder, "kept", "SELECT count(*) FROM file WHERE path LIKE '%.so'"), "1\n");
}

/// A kept answer has the names that a run without a store would find now.
#[test]
fn names_of_another_file_are_kept_as_long_as_it_is_the_same() {
    let folder = Folder::new("store-names");
    folder.write("late.s", LATE.replace(".globl late\n", ""));
    folder.run("gcc -g -nostdlib -shared late.s -o whole.so && strip -o late.so whole.so");
    folder.run("objcopy --only-keep-debug whole.so late.debug && objcopy --add-gnu-debuglink=late.debug late.so");
    folder.run("mkdir all aside && mv late.so all");
    let agree = |is_named: bool, inputs: &str| {
        for words in ["lint {}all/late.so", "lint {}--sarif all/late.so"] {
            let without = dwcheck_elf(&folder, &words.replace("{}", ""));
            assert_eq!(without.out.contains("late push at late"), is_named, "{}", without.out);
            for _ in 0..2 {
                same(&dwcheck_elf(&folder, &words.replace("{}", "--store kept ")), &without);
            }
        }
        assert_eq!(sqlite3(&folder, "kept", "SELECT DISTINCT inputs FROM answer"), format!("{}\n", inputs));
    };
    agree(false, "");
    folder.run("cp late.debug all");
    let digest = folder.run("sha256sum < late.debug | cut -c-64");
    let separate = format!("separate={}", digest.trim());
    agree(true, &separate);
    sqlite3(&folder, "kept", "UPDATE finding SET text = 'what stands there'");
    assert!(dwcheck_elf(&folder, "lint --store kept all/late.so").out.contains("all/late.so: what stands there\n"));
    folder.run("mv all/late.debug aside");
    agree(false, "");
    // One that can't be used is said each time, and the answer isn't kept.
    folder.run("cp late.debug all && printf x >> all/late.debug");
    agree(false, "");
}

#[test]
fn a_kept_page_is_the_page() {
    let folder = folder("store-report");
    let without = dwcheck_elf(&folder, "report all/good all/below/bad");
    let with = "report --store kept all/good all/below/bad";
    same(&dwcheck_elf(&folder, with), &without);
    same(&dwcheck_elf(&folder, with), &without);
    assert_eq!(dwcheck_elf(&folder, "report --store kept all/good").status, 0);
    assert_eq!(sqlite3(&folder, "kept", "SELECT count(*) FROM answer"), "2\n");
}

/// The files that the lines of a survey name.
fn files(ran: &Ran) -> Vec<String> {
    let line = |line: &str| serde_json::from_str::<Value>(line).unwrap()["file"].as_str().map(str::to_string);
    let mut files: Vec<_> = ran.lines().into_iter().filter_map(line).collect();
    files.sort();
    files
}

#[test]
fn shards_are_all_files_once_and_their_stores_joined_are_the_whole() {
    let folder = folder("store-shards");
    let whole = dwcheck_elf(&folder, "survey --json --store whole all");
    let mut parts = Vec::new();
    for number in 1..=3 {
        let words = format!("survey --json --store part{0} --shard {0}/3 all", number);
        parts.extend(files(&dwcheck_elf(&folder, &words)));
        // Several shards on one machine may also share a store.
        dwcheck_elf(&folder, &format!("survey --json --store shared --shard {}/3 all", number));
    }
    parts.sort();
    assert_eq!(parts, files(&whole));
    assert_eq!(dwcheck_elf(&folder, "store merge joined part3 part1 part2 part1").status, 0);
    for format in ["json", "csv"] {
        let export = |store: &str| dwcheck_elf(&folder, &format!("store export --format {} {}", format, store)).out;
        assert!(export("whole").lines().count() > 1);
        assert_eq!(export("joined"), export("whole"));
        assert_eq!(export("shared"), export("whole"));
    }
    assert_eq!(dwcheck_elf(&folder, "survey --shard 4/3 all").status, 2);
}

/// A worker that is killed loses nothing that it has kept, and its successor doubles nothing.
#[test]
fn killed_runs_leave_what_a_whole_run_leaves() {
    let folder = folder("store-killed");
    dwcheck_elf(&folder, "lint --store whole all");
    for number in 0..20_u64 {
        let mut command = Command::new(env!("CARGO_BIN_EXE_dwcheck-elf"));
        command.args(["lint", "--store", "killed", "--jobs", "1", "all"]).current_dir(folder.path());
        let mut worker = command.stdout(Stdio::null()).stderr(Stdio::null()).spawn().unwrap();
        thread::sleep(Duration::from_micros(1_500 * number));
        worker.kill().unwrap();
        worker.wait().unwrap();
    }
    dwcheck_elf(&folder, "lint --store killed all");
    assert_eq!(sqlite3(&folder, "killed", "PRAGMA integrity_check; PRAGMA foreign_key_check"), "ok\n");
    let export = |store: &str| dwcheck_elf(&folder, &format!("store export {}", store)).out;
    assert_eq!(export("killed"), export("whole"));
}

#[test]
fn findings_that_are_new_are_told() {
    let folder = folder("store-diff");
    dwcheck_elf(&folder, "lint --store old all");
    let unchanged = dwcheck_elf(&folder, "store diff old old");
    assert_eq!((unchanged.status, unchanged.out.as_str()), (0, "new 0 gone 0 moved 0\n"));
    folder.run("sed 's/late/tardy/g' late.s > tardy.s && as tardy.s -o tardy.o");
    folder.run("gcc -shared -nostdlib tardy.o late.o -o all/late.so");
    dwcheck_elf(&folder, "lint --store new all");
    let ran = dwcheck_elf(&folder, "store diff old new");
    let (first, last) = (ran.lines()[0], *ran.lines().last().unwrap());
    let file = folder.file("all/late.so").display().to_string();
    assert_eq!((ran.status, last), (1, "new 1 gone 0 moved 1"), "{}", ran.out);
    assert!(ran.out.contains(&format!("new {}: late push at tardy", file)), "{}", ran.out);
    assert!(first.starts_with(&format!("moved {}: late push at late", file)), "{}", ran.out);
    assert!(ran.out.contains("\npackage none: new 1 gone 0 moved 1\ncompiler none: new 1 gone 0 moved 1\n"));
    let page = dwcheck_elf(&folder, "store report new -o page.html");
    let text = String::from_utf8(folder.bytes("page.html")).unwrap();
    assert_eq!((page.status, page.out.as_str()), (0, ""));
    assert!(text.contains("\"all\":2") && text.contains("late push at tardy"), "{}", text);
}

#[test]
fn a_store_that_cannot_be_used_is_named_in_a_line() {
    let folder = folder("store-bad");
    dwcheck_elf(&folder, "survey --store newer all");
    sqlite3(&folder, "newer", "PRAGMA user_version = 9");
    folder.write("noise", (0..5_000_u32).map(|one| ((one * one) >> 5) as u8).collect::<Vec<_>>());
    let newer = "its schema has version 9, and this dwcheck-elf knows versions up to 1";
    for (store, why) in [("newer", newer), ("noise", "not a store of dwcheck-elf")] {
        let words = ["survey --store {} all", "store export {}", "store merge into {}", "store diff {} {}"];
        for words in words {
            let ran = dwcheck_elf(&folder, &words.replace("{}", store));
            assert_eq!((ran.status, ran.error), (3, format!("dwcheck-elf: the store {}: {}\n", store, why)));
        }
    }
    let missing = dwcheck_elf(&folder, "store report missing");
    assert_eq!((missing.status, missing.error.lines().count()), (3, 1));
    assert!(!folder.file("missing").exists() && !folder.file("into").exists());
}

/// The limit of a process stands for the end of the disk. What was kept before is whole.
#[test]
fn a_full_disk_ends_a_run_in_a_line() {
    let folder = folder("store-full");
    dwcheck_elf(&folder, "survey --store kept all/good");
    let before = dwcheck_elf(&folder, "store export kept").out;
    let program = env!("CARGO_BIN_EXE_dwcheck-elf");
    let limited = format!("trap '' XFSZ; ulimit -f 1; {} lint --store kept all > out 2> error; echo $?", program);
    assert_eq!(folder.run(&limited), "3\n");
    let error = String::from_utf8(folder.bytes("error")).unwrap();
    assert!(error.starts_with("dwcheck-elf: the store kept: ") && error.lines().count() == 1, "{}", error);
    assert_eq!(dwcheck_elf(&folder, "store export kept").out, before);
    dwcheck_elf(&folder, "lint --store kept all");
    assert_eq!(sqlite3(&folder, "kept", "PRAGMA integrity_check"), "ok\n");
}
