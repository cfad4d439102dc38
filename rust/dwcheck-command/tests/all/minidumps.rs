//! Minidumps: those that are kept in tests/minidumps, which Crashpad and LLDB have written, beside what LLDB shows of them;
//! and minidumps of core files, whose frames have to be those of the core files.

use crate::common::cores::{addresses, frames, stop};
use crate::common::minidumps::{
    list, minidump, system, words, Minidump, Writer, EXCEPTION, MEMORY, MODULES, SYSTEM, THREADS,
};
use crate::common::run::{dwcheck_elf, Ran};
use crate::common::{has, Folder};
use dwcheck_elf::core_file::CoreFile;
use serde_json::Value;

/// The kept minidumps: the machine, who wrote it, and how the program crashed.
pub const KEPT: [(&str, &str, &str); 8] = [
    ("x86-64", "crashpad", "null"),
    ("x86-64", "crashpad", "handler"),
    ("x86-64", "crashpad", "overflow"),
    ("i386", "crashpad", "null"),
    ("i386", "crashpad", "handler"),
    ("i386", "crashpad", "overflow"),
    ("x86-64", "lldb", "null"),
    ("x86-64", "lldb", "handler"),
];

/// A file that is kept, which is compressed.
fn kept(name: &str) -> String {
    format!("{}/tests/minidumps/{}", env!("CARGO_MANIFEST_DIR"), name)
}

/// A folder with all kept minidumps and their programs.
pub fn unpacked(name: &str) -> Folder {
    let folder = Folder::new(name);
    folder.run(&format!("for file in {}; do gunzip -c $file > $(basename $file .gz); done", kept("*.gz")));
    folder
}

/// The names of the functions of frames, without offsets.
fn functions(out: &str) -> Vec<String> {
    let function = |frame: &&str| frame.split(' ').nth(1).unwrap_or("").split('+').next().unwrap().to_string();
    frames(out).iter().map(function).collect()
}

/// What LLDB showed of a kept minidump: the address and the function of each frame.
pub fn by_lldb(name: &str) -> Vec<(u64, String)> {
    let shown = std::fs::read_to_string(kept(&format!("{}.lldb.txt", name))).unwrap();
    let frame = |line: &str| {
        let (_, rest) = line.split_once(": 0x")?;
        let (address, rest) = rest.split_once(' ').unwrap_or((rest, ""));
        let function = rest.split_once('`').map_or("", |(_, name)| name.split(&['(', ' '][..]).next().unwrap());
        Some((u64::from_str_radix(address, 16).ok()?, function.to_string()))
    };
    shown.lines().filter(|line| line.contains("frame #")).map(|line| frame(line).unwrap()).collect()
}

pub fn shown(ran: &Ran) -> Vec<(u64, String)> {
    let all = frames(&ran.out);
    let addresses = addresses(&all).into_iter().map(crate::common::hex);
    addresses
        .zip(functions(&ran.out))
        .map(|(address, name)| (address, if address == 0 { String::new() } else { name }))
        .collect()
}

/// LLDB stops at the code to which the signal handler returns, which has no row. The frames after it are those of gdb on a
/// core file of the same crash.
#[test]
fn the_frames_of_kept_minidumps_are_lldbs() {
    let folder = unpacked("minidumps-kept");
    for (machine, writer, how) in KEPT {
        let name = format!("{}-{}-{}", machine, writer, how);
        let ran = dwcheck_elf(&folder, &format!("stack --no-inline --no-source --path . {}", name));
        assert_eq!(ran.status, 0, "{}: {}", name, ran.error);
        let (ours, theirs) = (shown(&ran), by_lldb(&name));
        if how == "handler" {
            assert_eq!(ours[..2], theirs[..2], "{}\n{}", name, ran.out);
            let names: Vec<_> = ours.iter().map(|(_, name)| name.as_str()).collect();
            assert!(names[3..].ends_with(&["crashes", "begin", "_start"]), "{:?}", names);
        } else {
            assert_eq!(ours, theirs, "{}\n{}", name, ran.out);
        }
        assert!(ran.out.starts_with("signal 11 SIGSEGV"), "{}", ran.out);
    }
}

/// Crashpad keeps the cause of the signal and the address of the fault, LLDB neither.
#[test]
fn what_minidumps_say_of_the_crash() {
    let folder = unpacked("minidumps-crash");
    let head = |name: &str| dwcheck_elf(&folder, &format!("stack --path . {}", name)).lines()[..2].join("\n");
    assert_eq!(
        head("x86-64-crashpad-handler"),
        "signal 11 SIGSEGV, code SEGV_MAPERR, address 0x0000000000000008\nannotation ver: 1.2"
    );
    assert!(
        head("x86-64-lldb-handler").starts_with("signal 11 SIGSEGV\ninstruction "),
        "{}",
        head("x86-64-lldb-handler")
    );
    let overflowed = dwcheck_elf(&folder, "stack --path . x86-64-crashpad-overflow");
    assert!(overflowed.error.contains(": it has no memory at the stack pointer, 0x"), "{}", overflowed.error);
    assert!(overflowed.error.ends_with("so the stack may have overflowed\n"), "{}", overflowed.error);
}

#[test]
fn variables_and_lines_of_a_minidump() {
    let folder = unpacked("minidumps-vars");
    let ran = dwcheck_elf(&folder, "vars --core x86-64-crashpad-null --path . --frame 1");
    assert_eq!((ran.status, ran.error.as_str()), (0, ""));
    assert!(
        ran.out.contains("null_call")
            && ran.out.contains("param n: int = 3")
            && ran.out.contains("kept: volatile int = 3"),
        "{}",
        ran.out
    );
    let ran = dwcheck_elf(&folder, "stack --path . x86-64-crashpad-null");
    assert!(ran.out.contains(" null_call+0x") && ran.out.contains("crashes.c:"), "{}", ran.out);
}

/// Each frame says how it was found. Where the file of a module isn't there, its name, its build id and the place in it
/// are those of the minidump.
#[test]
fn frames_of_minidumps_as_json() {
    let folder = unpacked("minidumps-json");
    let read = |words: &str| -> Value {
        let ran = dwcheck_elf(&folder, words);
        assert_eq!(ran.status, 0, "{}", ran.error);
        serde_json::from_str(&ran.out).unwrap()
    };
    let found = read("stack --json --path . x86-64-crashpad-null");
    let frames = found["threads"][0]["frames"].as_array().unwrap();
    let rules: Vec<_> = frames.iter().map(|frame| frame["found_by"].as_str().unwrap()).collect();
    assert_eq!(rules, ["context", "call", "row", "row", "row"]);
    assert_eq!(found["annotations"], serde_json::json!([{ "name": "ver", "value": "1.2" }]));
    let id = folder.run("readelf -n x86-64 | sed -n 's/.*Build ID: //p'");
    assert_eq!(frames[1]["build_id"], id.trim());
    let lost = read("stack --json x86-64-crashpad-null");
    let first = &lost["threads"][0]["frames"][1];
    assert_eq!(first["build_id"], id.trim());
    assert_eq!((&first["module_offset"], &first["function"]), (&frames[1]["module_offset"], &Value::Null));
    let warning = lost["warnings"][0].as_str().unwrap();
    assert!(
        warning.ends_with(&format!("build id {}: not found; --path FOLDER says where it may be", id.trim())),
        "{}",
        warning
    );
}

/// A file is found by its build id, whatever its name. One with its name and another build id isn't used.
#[test]
fn modules_are_found_by_build_id() {
    let folder = unpacked("minidumps-path");
    folder.run("mkdir -p files/deep/er other && mv x86-64 files/deep/er/renamed && cp i386 other/");
    let frames_in = |path: &str| {
        let ran = dwcheck_elf(&folder, &format!("stack --no-source --path {} x86-64-crashpad-null", path));
        (functions(&ran.out), ran.error)
    };
    let (found, error) = frames_in("files");
    assert_eq!((found[1..].join(" ").as_str(), error.as_str()), ("null_call crashes begin _start", ""));
    folder.run("echo 'int main(void) { return 0; }' | gcc -x c - -Wl,--build-id=sha1 -o other/x86-64");
    let (found, error) = frames_in("other");
    assert!(
        found.len() < 5 && error.contains("other/x86-64 is another build: its build id is "),
        "{:?} {}",
        found,
        error
    );
    let refused = dwcheck_elf(&folder, "stack --path nowhere x86-64-crashpad-null");
    assert_eq!((refused.status, refused.error.contains("nowhere")), (3, true), "{}", refused.error);
}

const PROGRAM: &str = "
#include <pthread.h>
#include <signal.h>
#include <stdlib.h>
#include <unistd.h>
static volatile int waits;
static int order(const void *x, const void *y) { waits = 1; for (;;) pause(); return *(const int *)x - *(const int *)y; }
static void *sorts(void *unused) { int values[] = {3, 1, 2}; qsort(values, 3, sizeof *values, order); return unused; }
static void handler(int number) { if (number) abort(); }
__attribute__((noinline)) static int faulty(volatile int *address) { return *address + 1; }
int main(int count, char **words) {
    pthread_t thread;
    if (count == 1 && pthread_create(&thread, NULL, sorts, NULL) != 0) return 1;
    while (count == 1 && !waits) usleep(1000);
    signal(SIGUSR1, handler);
    return raise(SIGUSR1) + faulty((volatile int *)16) + 1;
}
";

/// The threads and the addresses of their frames.
fn threads(out: &str) -> Vec<String> {
    let mut threads: Vec<String> = Vec::new();
    for line in out.lines() {
        if let Some(rest) = line.strip_prefix("thread ") {
            threads.push(format!("{}:", rest.trim_end_matches(':').split(' ').next().unwrap()));
        } else if let (Some(last), true) = (threads.last_mut(), line.starts_with('#')) {
            last.push(' ');
            last.push_str(line.split(' ').nth(1).unwrap());
        }
    }
    threads[1..].sort();
    threads
}

/// Compares the frames of the core file `core` with those of its minidumps. `program` is needed if the core file names no
/// files.
fn compare(folder: &Folder, program: Option<&str>) {
    let given = program.map_or_else(String::new, |program| format!("{} ", program));
    let of_core = dwcheck_elf(folder, &format!("stack --no-source {}core", given));
    assert_eq!((of_core.status, of_core.error.as_str()), (0, ""), "{}", of_core.out);
    assert!(frames(&of_core.out).len() > 4, "{}", of_core.out);
    let bytes = folder.bytes("core");
    let core = CoreFile::read(&bytes).unwrap();
    let program = program.map(|name| (folder.file(name), folder.bytes(name)));
    for writer in [Writer::Crashpad, Writer::Lldb] {
        let given = program.as_ref().map(|(path, bytes)| (path.as_path(), bytes.as_slice()));
        folder.write("dump", minidump(&core, given, writer));
        let of_dump = dwcheck_elf(folder, "stack --no-source dump");
        assert_eq!((of_dump.status, of_dump.error.as_str()), (0, ""), "{:?} {}", writer, of_dump.out);
        assert_eq!(threads(&of_dump.out), threads(&of_core.out), "{:?}\n{}\n{}", writer, of_dump.out, of_core.out);
        assert_eq!(stop(&of_dump.out), stop(&of_core.out), "{:?}", writer);
    }
}

#[test]
fn the_same_crash_as_core_file_and_as_minidump_has_the_same_frames() {
    let folder = Folder::new("minidumps-cores");
    if !has("gdb") {
        return;
    }
    folder.write("a.c", PROGRAM);
    folder.run("gcc -O1 -pthread a.c -o program");
    folder.make_core("./program");
    compare(&folder, None);
}

#[test]
fn the_same_crash_of_i386_and_aarch64() {
    let folder = Folder::new("minidumps-machines");
    if !["aarch64-linux-gnu-gcc", "qemu-aarch64", "gdb"].iter().all(|tool| has(tool)) {
        return;
    }
    // qemu calls handlers from code that is in no file, and that Crashpad's minidumps wouldn't list.
    folder.write("a.c", PROGRAM.replace("raise(SIGUSR1) + ", ""));
    folder.run("aarch64-linux-gnu-gcc -O1 -static -Wl,--build-id=sha1 a.c -o program");
    folder.run("ulimit -c unlimited; qemu-aarch64 ./program 1 2> /dev/null || mv qemu_program_*.core core");
    compare(&folder, Some("program"));
    folder.run("rm core program; gcc -m32 -O1 a.c -o program 2> /dev/null || true");
    if folder.file("program").exists() {
        folder.make_core("./program 1");
        compare(&folder, None);
    }
}

/// A file without a build id has one of its code, which Breakpad gives it.
#[test]
fn a_program_without_a_build_id_is_found_by_its_code() {
    let folder = Folder::new("minidumps-code-id");
    if !has("gdb") {
        return;
    }
    folder.write("a.c", PROGRAM);
    folder.run("gcc -O1 -pthread -Wl,--build-id=none a.c -o program");
    folder.make_core("./program");
    compare(&folder, None);
    let found = || {
        let ran = dwcheck_elf(&folder, "stack --no-source --path symbols dump");
        (functions(&ran.out).contains(&"main".to_string()), ran.error)
    };
    folder.run("mkdir symbols && mv program symbols/");
    assert_eq!(found(), (true, String::new()));
    folder.run("sed 's/raise(SIGUSR1) + //' a.c > b.c && gcc -O1 -pthread -Wl,--build-id=none b.c -o symbols/program");
    let (is_found, error) = found();
    assert!(!is_found && error.contains("symbols/program is another build"), "{}", error);
}

/// Calls a function through two frames of code that it has made, which keeps frame pointers: `push %rbp; mov %rsp, %rbp;
/// mov %rdi, %rax; mov %rsi, %rdi; mov %rdx, %rsi; call *%rax; leave; ret`.
const MADE_CODE: &str = r#"
#include <stdlib.h>
#include <string.h>
#include <sys/mman.h>
typedef int made(void *, void *, long);
static const char bytes[] = "\x55\x48\x89\xe5\x48\x89\xf8\x48\x89\xf7\x48\x89\xd6\xff\xd0\xc9\xc3";
__attribute__((noinline)) static int crashes(long n) { return *(volatile int *)n + 1; }
__attribute__((noinline)) static int calls(made *code) { return code((void *)code, (void *)crashes, 8) + 1; }
int main(void) {
    void *page = mmap(0, 4096, PROT_READ | PROT_WRITE | PROT_EXEC, MAP_PRIVATE | MAP_ANONYMOUS, -1, 0);
    return calls((made *)memcpy(page, bytes, sizeof bytes)) + 1;
}
"#;

/// Crashpad's minidumps don't say which memory is code. Frames of code that a program has made are passed by their frame
/// pointers, and the callers are marked, as in a core file. Without frame pointers, the end says that it isn't known.
#[test]
fn code_that_a_program_has_made() {
    let folder = Folder::new("minidumps-made-code");
    if !has("gdb") {
        return;
    }
    let crash = |source: &str| {
        folder.write("a.c", source);
        folder.run("gcc -O1 a.c -o program");
        folder.make_core("./program");
        let bytes = folder.bytes("core");
        folder.write("dump", minidump(&CoreFile::read(&bytes).unwrap(), None, Writer::Crashpad));
        dwcheck_elf(&folder, "stack --no-source dump")
    };
    let ran = crash(MADE_CODE);
    assert_eq!(threads(&ran.out), threads(&dwcheck_elf(&folder, "stack --no-source core").out), "{}", ran.out);
    assert_eq!(ran.out.matches(" guess: frame pointer").count(), 2, "{}", ran.out);
    assert_eq!(functions(&ran.out)[3..5], ["calls", "main"], "{}", ran.out);
    // push %rcx; xor %ebp, %ebp; nop; .. pop %rcx
    let without = MADE_CODE.replace("\\x55\\x48\\x89\\xe5", "\\x51\\x31\\xed\\x90").replace("\\xc9", "\\x59");
    let ran = crash(&without);
    assert!(stop(&ran.out).ends_with(" is in no module, and may be code"), "{}", ran.out);
}

/// Without the program's file, no row and no frame pointer leads on. The words of the stack that may be return addresses
/// have those of all callers.
#[test]
fn a_scan_finds_all_callers_and_marks_them() {
    let folder = unpacked("minidumps-scan");
    let name = "x86-64-crashpad-null";
    assert_eq!(frames(&dwcheck_elf(&folder, &format!("stack {}", name)).out).len(), 2);
    let ran = dwcheck_elf(&folder, &format!("stack --scan {}", name));
    let found = frames(&ran.out);
    let mut found_addresses = addresses(&found).into_iter().map(crate::common::hex);
    for (address, _) in by_lldb(name) {
        assert!(found_addresses.any(|found| found == address), "{:#x}\n{}", address, ran.out);
    }
    assert!(found[2..].iter().all(|frame| frame.ends_with(" guess: scan")), "{}", ran.out);
}

/// The smallest minidump that has a thread.
fn small(edit: impl FnOnce(&mut Minidump)) -> Vec<u8> {
    let mut dump = Minidump::new();
    edit(&mut dump);
    dump.file()
}

/// A thread without registers, at an offset.
fn thread(id: u32, stack: [u32; 2], context: [u32; 2]) -> Vec<u8> {
    words(&[id, 0, 0, 0, 0, 0, 0x1000, 0, stack[0], stack[1], context[0], context[1]])
}

#[test]
fn bad_minidumps_have_one_answer_each() {
    let folder = Folder::new("minidumps-bad");
    let answer = |name: &str, bytes: Vec<u8>| {
        folder.write(name, bytes);
        let ran = dwcheck_elf(&folder, &format!("stack {}", name));
        (ran.status, ran.error.trim_end().replace("dwcheck-elf: ", ""))
    };
    let x86 = |dump: &mut Minidump| dump.stream(SYSTEM, &system(62, 0x8201));
    let refused = |bytes, why: &str| assert_eq!(answer("dump", bytes), (3, format!("dump: {}", why)));
    refused(b"MDMP".to_vec(), "the header of a minidump has 32 bytes, and the file ends before that");
    refused(b"PMDM".repeat(8), "a minidump of a big-endian machine: x86-64, i386 and aarch64 are read");
    refused(small(|_| {}), "a minidump without the system information");
    refused(
        small(|dump| dump.stream(SYSTEM, &system(62, 2))),
        "a minidump of Windows: those of Linux and Android are read",
    );
    let arm = [&[5u8, 0][..], &system(62, 0x8201)[2..]].concat();
    let unread = "a minidump of arm (machine 0x5): x86-64, i386 and aarch64 are read";
    refused(small(|dump| dump.stream(SYSTEM, &arm)), unread);
    refused(small(x86), "a minidump without the list of threads");
    let lies = |kind: u32, bytes: Vec<u8>| {
        let bytes = small(|dump| {
            x86(dump);
            if kind != THREADS {
                dump.stream(THREADS, &list(&[]));
            }
            dump.stream(kind, &bytes);
        });
        let (status, why) = answer("dump", bytes);
        assert_eq!(status, 0, "{}", why);
        why.replace("dump: ", "")
    };
    let many = [&words(&[1_000_000]), &thread(7, [0, 0], [1232, 0xffff_0000])[..]].concat();
    assert_eq!(
        lies(THREADS, many),
        "the list of threads counts more entries than it has\nthread 7: its registers can't be read"
    );
    let wrong = list(&[thread(7, [0, 0], [100, 32]), thread(8, [0, 0], [1232, 32])]);
    assert_eq!(lies(THREADS, wrong), "thread 7 and 1 others: their registers can't be read");
    let past = list(&[words(&[0x1000, 0, 16, 0xffff_fff0])]);
    assert!(lies(MEMORY, past)
        .ends_with("the list of memory: the part at offset 0xfffffff0 isn't whole, or overlaps others"));
    let name = [&words(&[0x1000, 0, 16, 0, 0, 0xffff_fff0]), &[0; 84][..]].concat();
    assert!(lies(MODULES, list(&[name])).contains("the list of modules: the part at offset 0xfffffff0 isn't whole"));
    let exception = [&words(&[9, 0, 11, 1, 0, 0, 8, 0]), &[0; 128][..], &words(&[1232, 0xffff_0000])].concat();
    assert_eq!(lies(EXCEPTION, exception), "the exception: its registers can't be read");
}
