//! Prints the stacks of core files, and compares the frames with those that elfutils finds.

use crate::common::cores::by_gdb;
use crate::common::run::dwcheck_elf;
use crate::common::{has, may_trace, skipped, Folder};

const THREADS: &str = "
#include <pthread.h>
#include <stdlib.h>
#include <unistd.h>
static volatile int waits;
static int order(const void *x, const void *y) { waits = 1; for (;;) pause(); return *(const int *)x - *(const int *)y; }
static void *sorts(void *unused) { int values[] = {3, 1, 2}; qsort(values, 3, sizeof *values, order); return unused; }
__attribute__((noinline)) static int deep(int levels) {
    volatile int kept = levels;
    if (levels == 0) abort();
    return deep(levels - 1) + kept;
}
int main(void) {
    pthread_t thread;
    if (pthread_create(&thread, NULL, sorts, NULL) != 0) return 1;
    while (!waits) usleep(1000);
    return deep(20);
}
";

const SIGNAL: &str = "
#include <signal.h>
#include <stdlib.h>
static void handler(int number) { if (number) abort(); }
__attribute__((noinline)) static int faulty(volatile int *address) { return *address + 1; }
int main(void) { signal(SIGSEGV, handler); return faulty((volatile int *)16) + 1; }
";

/// A destructor aborts the program while an exception is in flight.
const EXCEPTION: &str = "
#include <cstdlib>
#include <stdexcept>
struct Loud { int n; __attribute__((noinline)) ~Loud() { if (n > 2) std::abort(); } };
__attribute__((noinline)) void thrower(int n) { if (n > 2) throw std::runtime_error(\"thrown\"); }
__attribute__((noinline)) int middle(int n) { Loud loud{n}; thrower(n); return loud.n; }
int main(int argc, char **) { try { return middle(argc + 3); } catch (const std::exception &) { return 1; } }
";

/// The threads and the addresses of their frames, from the output of `dwcheck-elf stack` or of
/// eu-stack.
fn addresses(shown: &str) -> Vec<String> {
    let lines = shown.lines().filter_map(|line| {
        let words: Vec<_> = line.split_whitespace().collect();
        match words.as_slice() {
            [word, id, ..] if ["thread", "tid"].contains(&word.to_lowercase().as_str()) => {
                Some(format!("thread {}", id.trim_matches(':')))
            }
            [number, address, ..] if number.starts_with('#') => Some(address.to_string()),
            _ => None,
        }
    });
    lines.collect()
}

/// Runs a program that is ended by a signal, and compares its stacks with those that eu-stack
/// shows. Returns what `dwcheck-elf` wrote, or an empty text if a tool isn't installed.
fn compared(name: &str, compiler: &str, source: &str) -> String {
    let folder = Folder::new(name);
    if !["gdb", "eu-stack"].iter().all(|tool| has(tool)) {
        return String::new();
    }
    let file = if compiler.starts_with("g++") { "a.cc" } else { "a.c" };
    folder.write(file, source);
    folder.run(&format!("{} {} -o program", compiler, file));
    folder.make_core("./program");
    let ours = dwcheck_elf(&folder, "stack --no-inline --no-source program core");
    assert_eq!((ours.status, ours.error.as_str()), (0, ""), "{}", ours.out);
    let theirs = folder.run("eu-stack --core core -e program 2> /dev/null");
    assert_eq!(addresses(&ours.out), addresses(&theirs), "{}\n{}", ours.out, theirs);
    ours.out
}

/// With the last flags, the program's own functions are in `.debug_frame`, and those of the C library
/// that are linked into it are in `.eh_frame`.
#[test]
fn threads_and_libraries() {
    for flags in ["-O1 -g", "-O2 -fno-pie -no-pie", "-O1 -g -fno-asynchronous-unwind-tables"] {
        let shown = compared("stack-threads", &format!("gcc {} -pthread", flags), THREADS);
        assert!(shown.is_empty() || shown.matches("thread ").count() == 2 && shown.contains(" qsort"), "{}", shown);
    }
}

#[test]
fn a_signal_handler() {
    let shown = compared("stack-signal", "gcc -O1", SIGNAL);
    assert!(shown.is_empty() || shown.contains(" faulty") && shown.contains(" main"), "{}", shown);
}

#[test]
fn an_exception_in_flight() {
    let shown = compared("stack-exception", "g++ -O1", EXCEPTION);
    assert!(shown.is_empty() || shown.contains("Loud::~Loud()") && shown.contains(" middle(int)"), "{}", shown);
}

/// In glibc 2.36 for i386, the FDEs of six functions are refused. The other FDEs are used.
#[test]
fn a_program_of_32_bits() {
    let folder = Folder::new("stack-m32");
    folder.write("a.c", "int main(void) { return 0; }");
    let builds = std::process::Command::new("gcc").args(["-m32", "a.c", "-o", "a"]).current_dir(folder.path()).output();
    if !builds.map_or(false, |output| output.status.success()) {
        return skipped("gcc -m32 doesn't link");
    }
    compared("stack-i386", "gcc -m32 -O1", SIGNAL);
}

/// Makes the program `program` with these flags of gcc, and its core file `core` by gdb. Returns
/// false if gdb isn't installed.
fn program_and_core(folder: &Folder, flags: &str) -> bool {
    folder.write("a.c", SIGNAL);
    folder.run(&format!("gcc -O1 {} a.c -o program", flags));
    let runs = has("gdb");
    if runs {
        folder.make_core("./program");
    }
    runs
}

/// The program on the command line is used, even if another file is at its old path.
#[test]
fn a_program_that_was_moved() {
    let folder = Folder::new("stack-moved");
    if !program_and_core(&folder, "-g") {
        return;
    }
    let before = dwcheck_elf(&folder, "stack --no-inline --no-source program core");
    assert_eq!((before.status, before.error.as_str()), (0, ""), "{}", before.out);
    assert!(before.out.contains(" faulty") && before.out.contains(" main"), "{}", before.out);
    folder.run("mkdir elsewhere; mv program elsewhere");
    for change in ["true", "cp a.c program", "gcc -O2 -g a.c -o program"] {
        folder.run(change);
        let moved = dwcheck_elf(&folder, "stack --no-inline --no-source elsewhere/program core");
        assert_eq!((moved.status, moved.error.as_str(), &moved.out), (0, "", &before.out), "{}", change);
    }
    folder.run("mkdir root; ln -s /usr /lib root");
    let root = dwcheck_elf(&folder, "stack --no-inline --no-source --root root elsewhere/program core");
    assert_eq!((root.status, root.error.as_str(), &root.out), (0, "", &before.out));
}

/// lld puts all segments of a small program into the first page of its file. The data in that page
/// has changed in memory.
#[test]
fn a_program_of_one_page() {
    let folder = Folder::new("stack-page");
    if !has("ld.lld") || !program_and_core(&folder, "-fuse-ld=lld") {
        return;
    }
    let ran = dwcheck_elf(&folder, "stack --no-inline --no-source program core");
    assert!(ran.status == 0 && ran.error.is_empty() && ran.out.contains(" faulty"), "{}{}", ran.error, ran.out);
}

/// A program that isn't the core's isn't used.
#[test]
fn another_program() {
    let folder = Folder::new("stack-other");
    if !program_and_core(&folder, "-g") {
        return;
    }
    let program = dwcheck_elf(&folder, "stack --no-inline --no-source program core");
    folder.run("gcc -O2 -g a.c -o other");
    let said = "dwcheck-elf: other isn't the program of this core file";
    let other = dwcheck_elf(&folder, "stack --no-inline --no-source other core");
    let expected = format!("{}: {} is used\n", said, folder.file("program").display());
    assert_eq!((other.status, &other.error, &other.out), (0, &expected, &program.out));
    folder.run("rm program");
    let other = dwcheck_elf(&folder, "stack --no-inline --no-source other core");
    assert!(other.status == 0 && other.error.ends_with(&format!("{}\n", said)), "{}", other.error);
    assert!(!other.out.contains(" faulty"), "{}", other.out);
}

/// A program whose function `last` ends with a call that doesn't return.
const NORETURN: &str = "
#include <stdlib.h>
__attribute__((noinline, noreturn)) static void stops(int n) { exit(n); }
__attribute__((noinline, noreturn)) static void last(int n) { volatile int kept = n; stops(kept); }
int main(int argc, char **argv) { last(argv[argc] != NULL); }
";

/// The script for gdb that writes state files.
const GDB_STATE: &str = concat!(env!("CARGO_MANIFEST_DIR"), "/../../tools/gdb_state.py");

/// tools/gdb_state.py writes the state of the thread's newest frame, even if another frame is
/// selected, and prints the command that walks from there.
#[test]
fn gdb_state_starts_at_the_newest_frame() {
    let folder = Folder::new("stack-newest");
    if !may_trace() {
        return;
    }
    folder.write("a.c", NORETURN);
    folder.run("gcc -O1 a.c -o program");
    let run = "-ex 'set startup-with-shell off' -ex 'break stops' -ex run";
    let states = "-ex 'dwcheck-state first' -ex up -ex 'dwcheck-state second' -ex 'frame 2' -ex 'dwcheck-state third'";
    let shown =
        folder.run(&format!("gdb --batch {} -x {} {} ./program < /dev/null 2> gdb.log", run, GDB_STATE, states));
    let commands: Vec<_> = shown.lines().filter_map(|line| line.strip_prefix("dwcheck-elf ")).collect();
    assert_eq!(commands.len(), 3, "{}", shown);
    let first = dwcheck_elf(&folder, commands[0]);
    assert!(["(stops)", "(last+", "(main+"].iter().all(|name| first.out.contains(name)), "{}", first.out);
    for (state, command) in ["second", "third"].iter().zip(&commands[1..]) {
        assert_eq!(folder.bytes(state), folder.bytes("first"));
        assert_eq!(dwcheck_elf(&folder, command).out, first.out);
    }
}

/// Without a process there is no state, and tools/gdb_state.py says what to do.
#[test]
fn gdb_state_needs_a_stopped_program() {
    let folder = Folder::new("stack-not-running");
    if !has("gdb") {
        return;
    }
    let shown = folder.run(&format!("gdb --batch -x {} -ex 'dwcheck-state state' 2>&1 || true", GDB_STATE));
    assert_eq!(shown.lines().last(), Some("the program isn't running: run it to a breakpoint first"), "{}", shown);
    assert!(!folder.file("state").exists());
}

/// qemu's core files don't list the mapped files, so the program on the command line is used.
#[test]
fn a_program_of_another_machine() {
    let folder = Folder::new("stack-aarch64");
    if !["aarch64-linux-gnu-gcc", "qemu-aarch64", "eu-stack"].iter().all(|tool| has(tool)) {
        return;
    }
    folder.write("a.c", THREADS.replace("pthread_create(&thread, NULL, sorts, NULL) != 0", "waits++"));
    folder.run("aarch64-linux-gnu-gcc -O1 -static a.c -o program");
    folder.run("ulimit -c unlimited; qemu-aarch64 ./program 2> /dev/null || mv qemu_program_*.core core");
    let ours = dwcheck_elf(&folder, "stack --no-inline --no-source program core");
    assert_eq!((ours.status, ours.error.as_str()), (0, ""), "{}", ours.out);
    assert!(ours.out.matches(" deep+").count() == 21 && ours.out.contains(" main+"), "{}", ours.out);
    // eu-stack finds no program for this core file, so it uses frame pointers. It shows the frames
    // that `dwcheck-elf` finds, and others between them.
    let theirs = addresses(&folder.run("eu-stack --core core -e program 2> /dev/null || true"));
    let mut left = theirs.iter();
    assert!(addresses(&ours.out).iter().all(|address| left.any(|other| other == address)), "{}{:?}", ours.out, theirs);
}

/// A recursion that never ends, in the first thread or in another one, or a frame that is larger than the stack. `below`
/// reads far below a stack that is nearly empty.
const OVERFLOWS: &str = r#"
#include <pthread.h>
#include <string.h>
#include <sys/resource.h>
__attribute__((noipa)) int deeper(int n) { volatile int kept = n; return deeper(kept + 1) + kept; }
__attribute__((noipa)) int large(int n) { volatile char room[1 << 24]; room[0] = n; return room[n]; }
__attribute__((noipa)) int below(int n) { volatile char *near = (char *)&n; return near[-(1 << 24)]; }
static void *begin(void *n) { return (void *)(long)deeper((int)(long)n); }
int main(int c, char **v) {
    struct rlimit size = {1 << 18, 1 << 18};
    pthread_attr_t small;
    pthread_t thread;
    setrlimit(RLIMIT_STACK, &size);
    if (!strcmp(v[1], "large")) return large(c) + 1;
    if (!strcmp(v[1], "below")) return below(c) + 1;
    if (!strcmp(v[1], "null")) return *(volatile int *)(long)(c - 2) + 1;
    if (!strcmp(v[1], "main")) return deeper(c) + 1;
    pthread_attr_init(&small);
    pthread_attr_setstacksize(&small, 1 << 18);
    return pthread_create(&thread, &small, begin, 0) || pthread_join(thread, 0);
}
"#;

/// The outermost frames are shown too, with the numbers that gdb gives them.
#[test]
fn a_stack_overflow_is_named_and_has_both_ends() {
    let folder = Folder::new("stacks-overflow");
    folder.write("a.c", OVERFLOWS);
    if !may_trace() {
        return;
    }
    folder.run("gcc -O1 -g -pthread a.c -o overflow");
    for (way, outermost) in [("main", " main+"), ("thread", " begin+")] {
        folder.crash(&format!("./overflow {}", way));
        let ran = dwcheck_elf(&folder, "stack --no-source --limit 5 core");
        assert!(ran.out.starts_with("signal 11 SIGSEGV, ") && ran.lines()[1] == "stack overflow", "{}", ran.out);
        let addresses = by_gdb(&folder, "overflow").into_iter().enumerate();
        let all: Vec<_> = addresses.map(|(number, address)| format!("#{} {} ", number, address)).collect();
        let ends: Vec<_> = all[..5].iter().chain(&all[all.len() - 10..]).collect();
        let first = ran.out.split("\nthread").nth(1).unwrap();
        let shown: Vec<_> = first.lines().filter(|line| line.starts_with('#')).collect();
        let is_shown = shown.len() == 15 && shown.iter().zip(ends).all(|(line, begin)| line.starts_with(begin));
        assert!(is_shown && shown[5..].iter().any(|line| line.contains(outermost)), "{}{:?}", first, all.last());
        assert!(first.contains(&format!("\n{} frames left out\n", all.len() - 15)), "{}", first);
        assert!(first.contains("\nstop: return undefined"), "{}", first);
        let json = dwcheck_elf(&folder, "stack --json --limit 5 core").out;
        let left_out = format!("\"frames_left_out\":{},\"stop\":\"return undefined\"", all.len() - 15);
        assert!(json.contains("\"stack_overflow\":true,") && json.contains(&left_out), "{}", json);
    }
    folder.crash("./overflow large");
    let ran = dwcheck_elf(&folder, "stack core");
    assert!(ran.lines()[1] == "stack overflow" && !ran.out.contains("left out"), "{}", ran.out);
    for way in ["below", "null"] {
        folder.crash(&format!("./overflow {}", way));
        let ran = dwcheck_elf(&folder, "stack core");
        assert!(ran.out.starts_with("signal 11 SIGSEGV, ") && !ran.out.contains("stack overflow"), "{}", ran.out);
        let json = dwcheck_elf(&folder, "stack --json core").out;
        assert!(json.contains("\"stack_overflow\":false,"), "{}", json);
    }
}
