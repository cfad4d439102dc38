//! Reports of crashes by `stack --handler`, without the system's core_pattern: gdb holds the process, and its core file comes
//! on standard input.

use crate::common::cores::{addresses, by_gdb, frames};
use crate::common::run::{dwcheck_elf, Ran};
use crate::common::waiting::{comes_true, Waiting};
use crate::common::{may_trace, Folder};
use serde_json::Value;
use std::os::unix::fs::PermissionsExt;
use std::path::Path;
use std::process::{Command, Stdio};

const PROGRAM: &str = "
#include <assert.h>
#include <pthread.h>
#include <unistd.h>
static volatile int waits;
static void *wait(void *unused) { waits = 1; for (;;) pause(); return unused; }
__attribute__((noinline)) int checks(int n) { int kept = n + 3; assert(kept > 100); return kept; }
int main(int count, char **words) {
    pthread_t thread;
    if (pthread_create(&thread, NULL, wait, NULL) != 0) return 1;
    while (!waits) usleep(1000);
    return checks(count) + 1;
}
";

/// Tests run beside others, and the program isn't optimized for them.
const PATIENT: &str = "--time-limit 300";

/// Runs a program in gdb until a signal ends it, makes its core file, and runs a handler with each of some options, after a
/// command of the shell.
fn handle(folder: &Folder, program: &str, runs: &[(&str, &str)]) -> Vec<Ran> {
    let mut script = String::from("set startup-with-shell off\nrun\ngcore core\n");
    for (number, (before, options)) in runs.iter().enumerate() {
        let words =
            format!("{}; {} stack {} --handler %d {}", before, env!("CARGO_BIN_EXE_dwcheck-elf"), PATIENT, options);
        let line = format!("{0} < core > out.{1} 2> error.{1}; echo $? > status.{1}", words, number);
        script += &format!("python gdb.execute('shell {}' % gdb.selected_inferior().pid)\n", line);
    }
    folder.write("handle.gdb", script + "kill\n");
    folder.run(&format!("gdb --batch -x handle.gdb {} > gdb.log 2>&1 < /dev/null", program));
    let text = |name: &str, number: usize| {
        String::from_utf8_lossy(&folder.bytes(&format!("{}.{}", name, number))).into_owned()
    };
    let ran = |number| Ran {
        status: text("status", number).trim().parse().unwrap(),
        out: text("out", number),
        error: text("error", number),
    };
    (0..runs.len()).map(ran).collect()
}

/// Builds the program `program`. Returns false if a tool isn't there.
fn build(folder: &Folder) -> bool {
    folder.write("a.c", PROGRAM);
    folder.run("gcc -O1 -g -pthread a.c -o program");
    may_trace()
}

/// The lines of a text from that of the signal on, with the names of threads as a core file has them.
fn stacks(out: &str) -> String {
    let from = out.find("signal ").unwrap_or_else(|| panic!("no signal in {}", out));
    let lines = out[from..].lines().map(|line| match line.strip_prefix("thread ") {
        Some(thread) => format!("thread {}\n", thread.split([' ', ':']).next().unwrap()),
        None => format!("{}\n", line),
    });
    lines.collect()
}

/// Also if the program is deleted meanwhile, and with the values of variables.
#[test]
fn the_same_crash_by_handler_and_by_core_file() {
    let folder = Folder::new("handler-same");
    if !build(&folder) {
        return;
    }
    let runs = [(":", ""), (":", "--json"), (":", "--vars"), ("mv program gone", "")];
    let ran = handle(&folder, "./program", &runs);
    folder.run("mv gone program");
    for one in &ran {
        assert_eq!((one.status, one.error.as_str()), (0, ""), "{}", one.out);
    }
    let core = dwcheck_elf(&folder, "stack core");
    assert!(core.out.contains("Assertion") && core.out.contains(" checks+"), "{}", core.out);
    assert_eq!(stacks(&ran[0].out), stacks(&core.out));
    let in_crash = frames(&ran[0].out);
    assert_eq!(addresses(&in_crash)[..3], by_gdb(&folder, "program")[..3], "{}", ran[0].out);
    assert_eq!(stacks(&ran[2].out), stacks(&dwcheck_elf(&folder, "stack --vars core").out));
    assert_eq!(addresses(&frames(&ran[3].out)), addresses(&frames(&core.out)), "{}", ran[3].out);
    let path = folder.file("program").display().to_string();
    assert!(ran[0].lines()[1] == format!("program {}", path), "{}", ran[0].out);
    let by_core: Value = serde_json::from_str(&dwcheck_elf(&folder, "stack --json core").out).unwrap();
    let by_handler: Value = serde_json::from_str(&ran[1].out).unwrap();
    assert_eq!(by_handler["threads"][0]["frames"], by_core["threads"][0]["frames"]);
    assert_eq!((by_core["crash"].is_null(), by_handler["crash"]["program"].as_str()), (true, Some(path.as_str())));
}

/// A report can be read by its owner alone, and a folder that others can write to isn't used. Only reports are deleted.
#[test]
fn a_folder_keeps_the_newest_reports() {
    let folder = Folder::new("handler-folder");
    if !build(&folder) {
        return;
    }
    let keep = (":", "--output reports --keep 2");
    let open = ("mkdir open && chmod 777 open", "--output open");
    let large = ("touch reports/crash.txt.txt reports/mine", "--output reports --json --mode 640 --keep 2");
    let ran = handle(&folder, "./program", &[keep, ("sleep 1.1", keep.1), ("sleep 1.1", keep.1), open, large]);
    let statuses: Vec<_> = ran.iter().map(|one| (one.status, one.out.as_str())).collect();
    assert_eq!(statuses, [(0, ""), (0, ""), (0, ""), (3, ""), (0, "")], "{:?}", ran);
    assert!(ran[3].error.contains("others can write to this folder"), "{}", ran[3].error);
    let mut kept: Vec<_> = std::fs::read_dir(folder.file("reports")).unwrap().map(|entry| entry.unwrap()).collect();
    kept.sort_by_key(|entry| entry.file_name());
    let rights = |name: &str| {
        let found = kept.iter().find(|entry| entry.file_name().to_string_lossy().ends_with(name)).unwrap();
        found.metadata().unwrap().permissions().mode() & 0o777
    };
    assert_eq!(kept.len(), 3, "{:?}", kept);
    assert_eq!(
        (rights(".json"), folder.file("reports").metadata().unwrap().permissions().mode() & 0o777),
        (0o640, 0o700)
    );
    assert!(kept.iter().any(|entry| entry.file_name() == "mine"));
}

/// The bytes of a core file as the kernel writes them, with the notes before all memory, and where the notes end.
fn as_the_kernel_writes(core: &[u8]) -> (Vec<u8>, usize) {
    let number =
        |at: usize, size: usize| core[at..at + size].iter().rev().fold(0, |all, byte| all << 8 | usize::from(*byte));
    let count = number(56, 2);
    let mut head = core[..64 + 56 * count].to_vec();
    let mut headers: Vec<usize> = (0..count).map(|place| 64 + 56 * place).collect();
    headers.sort_by_key(|at| number(*at, 4) != 4);
    let (mut body, begin) = (Vec::new(), head.len());
    let mut notes_end = 0;
    for at in headers {
        let (offset, size) = (number(at + 8, 8), number(at + 32, 8));
        head[at + 8..at + 16].copy_from_slice(&(begin + body.len()).to_le_bytes());
        body.extend_from_slice(&core[offset..offset + size]);
        notes_end = if number(at, 4) == 4 { begin + body.len() } else { notes_end };
    }
    (head.into_iter().chain(body).collect(), notes_end)
}

/// A process that is gone is known by what its core file has. One whose core file ends too early has a report even so, and
/// JSON is a document in any case.
#[test]
fn streams_that_end_too_early() {
    let folder = Folder::new("handler-cut");
    if !build(&folder) {
        return;
    }
    folder.make_core("./program");
    let (whole, notes_end) = as_the_kernel_writes(&folder.bytes("core"));
    folder.write("whole", &whole);
    let program = env!("CARGO_BIN_EXE_dwcheck-elf");
    let handler = format!("{} stack {} --json --no-source --handler 4194304", program, PATIENT);
    let report = |size: usize| -> (i32, Value) {
        let status = folder.run(&format!("head -c {} whole | {} > out 2> error; echo $?", size, handler));
        let error = String::from_utf8_lossy(&folder.bytes("error")).into_owned();
        assert!(!error.contains("panicked"), "{}: {}", size, error);
        (status.trim().parse().unwrap(), serde_json::from_slice(&folder.bytes("out")).unwrap())
    };
    let of_core: Value = serde_json::from_str(&dwcheck_elf(&folder, "stack --json --no-source core").out).unwrap();
    let (status, of_whole) = report(whole.len());
    assert_eq!((status, &of_whole["threads"]), (0, &of_core["threads"]));
    for size in (0..notes_end).step_by(notes_end / 16).chain([notes_end, notes_end + 5000]) {
        let (status, value) = report(size);
        let count = value["threads"].as_array().unwrap().len();
        assert!(status == 0 || status == 3 && count == 0, "{}: {}", size, value);
        assert!(size < notes_end || count == 2, "{}: {}", size, value);
    }
}

/// Starts a program that sleeps, and waits until the process has its name: a new process has that of the test at first.
fn sleeper(program: impl AsRef<Path>) -> Waiting {
    let program = program.as_ref();
    let process = Waiting(Command::new(program).arg("600").spawn().unwrap());
    let name = format!("{}\n", program.file_name().unwrap().to_str().unwrap());
    let comm = format!("/proc/{}/comm", process.id());
    assert!(comes_true(|| std::fs::read_to_string(&comm).unwrap() == name), "{:?}", program);
    process
}

/// One process has one handler.
#[test]
fn a_handler_is_alone() {
    let folder = Folder::new("handler-alone");
    if !may_trace() {
        return;
    }
    let process = sleeper("sleep");
    let words = format!("stack {} --handler {}", PATIENT, process.id());
    let mut first = Command::new(env!("CARGO_BIN_EXE_dwcheck-elf"));
    // Until the test ends, its core file neither comes nor ends.
    let first = first.args(words.split(' ')).stdin(Stdio::piped()).stdout(Stdio::null()).stderr(Stdio::null());
    let first = Waiting(first.spawn().unwrap());
    // The process that does its work is made once no other handler can come.
    let children = format!("/proc/{0}/task/{0}/children", first.id());
    assert!(comes_true(|| !std::fs::read_to_string(&children).unwrap().is_empty()));
    let second = dwcheck_elf(&folder, &words);
    assert_eq!(second.status, 3, "{}", second.out);
    assert!(second.error.ends_with(": another handler works on it\n"), "{}", second.error);
}

/// A handler whose core file doesn't come ends at its limit, and says so.
#[test]
fn a_handler_ends() {
    if !may_trace() {
        return;
    }
    let process = sleeper("sleep");
    let id = process.id().to_string();
    let mut handler = Command::new("timeout");
    handler.args(["60", env!("CARGO_BIN_EXE_dwcheck-elf"), "stack", "--time-limit", "5", "--handler", &id]);
    let mut handler = handler.stdin(Stdio::piped()).stdout(Stdio::piped()).stderr(Stdio::null()).spawn().unwrap();
    // It is kept open, since the core file would end with it.
    let core = handler.stdin.take();
    let ran = handler.wait_with_output().unwrap();
    drop(core);
    let out = String::from_utf8_lossy(&ran.stdout);
    assert_eq!(ran.status.code(), Some(3), "{}", out);
    assert!(out.contains("\"sleep\" of user "), "{}", out);
    assert!(out.ends_with("the report isn't whole: it takes more time than its limit, 5 s\n"), "{}", out);
}

/// Control characters in names don't reach a terminal or a log, and no part of a name leaves the folder.
#[test]
fn hostile_names() {
    let folder = Folder::new("handler-names");
    folder.run("mkdir -p $'a\\nsignal 9\\e[31m' && cp /bin/sleep $'a\\nsignal 9\\e[31m/..\\n\\e]0;x'");
    let process = sleeper(folder.file("a\nsignal 9\u{1b}[31m/..\n\u{1b}]0;x"));
    let handler = format!("{} stack {} --handler {}", env!("CARGO_BIN_EXE_dwcheck-elf"), PATIENT, process.id());
    folder.run(&format!(
        "{0} < /dev/null > out 2> /dev/null; {0} --output reports < /dev/null 2> /dev/null; true",
        handler
    ));
    let out = String::from_utf8_lossy(&folder.bytes("out")).into_owned();
    assert!(!out.contains('\u{1b}') && out.lines().count() == 3, "{:?}", out);
    let names = folder.run("ls reports");
    assert!(names.starts_with("crash._____0_x.") && names.lines().count() == 1, "{}", names);
}
