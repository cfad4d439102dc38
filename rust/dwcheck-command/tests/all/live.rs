//! Stacks of processes that run, beside those of eu-stack.

use crate::common::run::{dwcheck_elf, Ran};
use crate::common::waiting::{comes_true, Waiting};
use crate::common::{has, may_trace, Folder};
use std::process::{Command, Stdio};

const WAITS: &str = "
#define _GNU_SOURCE
#include <pthread.h>
#include <stdio.h>
#include <stdlib.h>
#include <unistd.h>
static pthread_barrier_t ready;
static int order(const void *x, const void *y) { pthread_barrier_wait(&ready); for (;;) pause(); return x < y; }
static void *sorts(void *unused) {
    int values[] = {3, 1, 2};
    pthread_setname_np(pthread_self(), \"sorter\");
    qsort(values, 3, sizeof *values, order);
    return unused;
}
int main(void) {
    pthread_t thread;
    pthread_barrier_init(&ready, NULL, 4);
    for (int i = 0; i < 3; i++) if (pthread_create(&thread, NULL, sorts, NULL) != 0) return 1;
    pthread_barrier_wait(&ready);
    puts(\"ready\");
    fflush(stdout);
    for (;;) pause();
}
";

/// The id of each thread and the addresses of its frames. They are sorted, since eu-stack has the threads in the order
/// in which they were made, and a later one may have a lower id.
fn addresses(out: &str) -> Vec<Vec<String>> {
    let mut threads = Vec::new();
    for line in out.lines() {
        let word = || line.split_whitespace().nth(1).unwrap().trim_matches(':').to_string();
        if line.to_lowercase().starts_with('t') {
            threads.push(vec![word()]);
        } else if line.starts_with('#') {
            threads.last_mut().unwrap().push(word());
        }
    }
    threads.sort();
    threads
}

const HANDLES: &str = "
#include <pthread.h>
#include <signal.h>
#include <stdio.h>
#include <unistd.h>
static char other[1 << 16];
static void handler(int number) { if (number) puts(\"ready\"); fflush(stdout); for (;;) pause(); }
__attribute__((noinline)) static int faulty(volatile int *address) { return *address + 1; }
__attribute__((noinline)) static void *run(void *unused) {
    stack_t stack = {.ss_sp = other, .ss_size = sizeof other};
    sigaltstack(&stack, NULL);
    struct sigaction action = {.sa_handler = handler, .sa_flags = SA_ONSTACK};
    sigaction(SIGSEGV, &action, NULL);
    return (void *)(faulty((volatile int *)16) + 1L);
}
int main(void) {
    pthread_t thread;
    if (IN_THREAD && pthread_create(&thread, NULL, run, NULL) == 0) for (;;) pause();
    return run(NULL) == NULL;
}
";

/// The first thread or another one, in a signal handler on another stack.
#[test]
fn a_handler_on_another_stack() {
    let folder = Folder::new("live-handler");
    if !may_trace() || !has("eu-stack") {
        return;
    }
    folder.write("waits.c", HANDLES);
    for in_thread in 0..2 {
        folder.run(&format!("gcc -O1 -DIN_THREAD={} waits.c -o waits -pthread", in_thread));
        let process = Waiting::start(&folder);
        let pid = process.id();
        assert!(process.comes_to_pause());
        let ran = dwcheck_elf(&folder, &format!("stack --no-inline --no-source --pid {}", pid));
        assert!(process.comes_to_pause());
        let theirs = folder.run(&format!("eu-stack -p {} 2> /dev/null || true", pid));
        assert_eq!(addresses(&ran.out), addresses(&theirs), "{}{}", ran.out, theirs);
        for name in [" handler+", " faulty", " run+", " main+"] {
            assert!(ran.out.contains(name), "{}", ran.out);
        }
    }
}

/// Has gdb trace all threads of a process. It waits for commands, and so ends with the test at the latest.
fn trace_by_gdb(process: &Waiting) -> Waiting {
    let mut gdb = Command::new("gdb");
    let gdb = gdb.args(["-q", "-p", &process.id().to_string()]).stdin(Stdio::piped());
    let gdb = Waiting(gdb.stdout(Stdio::null()).stderr(Stdio::null()).spawn().unwrap());
    let tracer = format!("\nTracerPid:\t{}\n", gdb.id());
    assert!(comes_true(|| process.is_of_each_thread("status", |text| text.contains(&tracer))));
    gdb
}

/// The stacks of a process are those of eu-stack, also after its file was removed. The process goes
/// on.
#[test]
fn a_process_that_waits() {
    let folder = Folder::new("live");
    if !may_trace() || !has("eu-stack") {
        return;
    }
    folder.write("waits.c", WAITS);
    folder.run("gcc -O1 -pthread waits.c -o waits");
    let process = Waiting::start(&folder);
    let pid = process.id();
    let stack = |more: &str| {
        assert!(process.comes_to_pause());
        dwcheck_elf(&folder, &format!("stack --no-inline --no-source --pid {}{}", pid, more))
    };
    let ran = stack("");
    assert_eq!((ran.status, ran.error.as_str(), process.comes_to_pause()), (0, "", true), "{}", ran.out);
    let theirs = folder.run(&format!("eu-stack -p {} 2> /dev/null || true", pid));
    assert_eq!(addresses(&ran.out), addresses(&theirs), "{}{}", ran.out, theirs);
    assert!(
        ran.out.contains(" sorts+") && ran.out.contains(" main+") && ran.out.matches("\"sorter\"").count() == 3,
        "{}",
        ran.out
    );
    let group = stack(" --group");
    assert_eq!(group.out.matches("threads ").count() + group.out.matches("thread ").count(), 2, "{}", group.out);
    let of_first = &ran.out[ran.out.find(&format!("thread {} ", pid)).unwrap()..];
    let end = of_first.find("stop: return undefined\n").unwrap() + 23;
    assert_eq!(stack(&format!(" --tid {}", pid)).out, of_first[..end]);
    std::fs::remove_file(folder.file("waits")).unwrap();
    let removed = stack("");
    assert_eq!(removed.out.replace(" (deleted)", ""), ran.out, "{}", removed.error);
}

/// A process that another program traces is left alone.
#[test]
fn a_process_that_is_traced_and_ends() {
    let folder = Folder::new("live-traced");
    if !may_trace() {
        return;
    }
    folder.write("waits.c", WAITS);
    folder.run("gcc -O1 -pthread waits.c -o waits");
    let process = Waiting::start(&folder);
    let pid = process.id();
    let gdb = trace_by_gdb(&process);
    let traced = dwcheck_elf(&folder, &format!("stack --pid {}", pid));
    assert_eq!(
        (traced.status, traced.error),
        (3, format!("dwcheck-elf: process {}: the process {} traces it already\n", pid, gdb.id()))
    );
    drop(gdb);
    drop(process);
    let ended = dwcheck_elf(&folder, &format!("stack --pid {}", pid));
    assert_eq!(
        (ended.status, ended.error),
        (3, format!("dwcheck-elf: process {}: there is no such process, or it ended\n", pid))
    );
}

/// A program in which a thread, a file's data and the heap have other values than at the start. The dynamic linker
/// has made the memory of `names` read-only once it had stored addresses there. The thread that comes last is ready.
const CHANGES: &str = "
#include <pthread.h>
#include <stdio.h>
#include <stdlib.h>
#include <string.h>
#include <unistd.h>
static char text[] = \"before\";
__attribute__((noinline)) static void work(int n) {
    static int initial = 5, zero, threads;
    static __thread int own = 40;
    static const char *const names[2] = {\"a name\", \"another\"};
    const char *shown = text, *copied = strdup(\"in the heap\");
    __atomic_add_fetch(&initial, n, __ATOMIC_SEQ_CST), __atomic_sub_fetch(&zero, n, __ATOMIC_SEQ_CST), own += n;
    memcpy(text, \"after!\", 6);
    if (__atomic_add_fetch(&threads, 1, __ATOMIC_SEQ_CST) == 2) { puts(\"ready\"); fflush(stdout); }
    if (n > 2) puts(names[n]);
    for (;;) pause();
}
static void *other(void *unused) { work(2); return unused; }
int main(void) { pthread_t thread; if (pthread_create(&thread, NULL, other, NULL) == 0) work(1); }
";

/// Checks the variables of `work` in the thread that called it with `n`.
fn has_values_of(n: i32, ran: &Ran) {
    let values: Vec<_> = ran.lines().iter().map(|line| line.trim().split(" (").next().unwrap().to_string()).collect();
    let expected = [
        format!("param n: int = {}", n),
        format!("var own: int = {}", 40 + n),
        "var initial: int = 8".to_string(),
        "var zero: int = -3".to_string(),
    ];
    for wanted in &expected {
        assert!(values.contains(wanted), "{}: {:?}", wanted, ran);
    }
    for wanted in [" \"after!\"", " \"in the heap\"", " \"another\"}"] {
        assert!(values.iter().any(|value| value.ends_with(wanted)), "{}: {:?}", wanted, ran);
    }
}

/// The variables of a process are those that it has now. It goes on.
#[test]
fn variables_of_a_process() {
    let folder = Folder::new("live-vars");
    if !may_trace() {
        return;
    }
    folder.write("waits.c", CHANGES);
    folder.run("gcc -O0 -g waits.c -o waits -pthread");
    let process = Waiting::start(&folder);
    let pid = process.id();
    let frame = |ran: &Ran| {
        let line = ran.lines().into_iter().find(|line| line.contains(" work+")).unwrap_or_else(|| panic!("{:?}", ran));
        line[1..line.find(' ').unwrap()].to_string()
    };
    assert!(process.comes_to_pause());
    let stack = dwcheck_elf(&folder, &format!("stack --no-source --pid {}", pid));
    let first = dwcheck_elf(&folder, &format!("vars --pid {} --frame {}", pid, frame(&stack)));
    assert_eq!((first.status, first.error.as_str(), process.comes_to_pause()), (0, "", true), "{}", first.out);
    has_values_of(1, &first);
    let tasks = std::fs::read_dir(format!("/proc/{}/task", pid)).unwrap();
    let tids = tasks.map(|task| task.unwrap().file_name().into_string().unwrap());
    let tid = tids.filter(|tid| *tid != pid.to_string()).max().unwrap();
    let stack = dwcheck_elf(&folder, &format!("stack --no-source --pid {} --tid {}", pid, tid));
    let second = dwcheck_elf(&folder, &format!("vars --pid {} --thread {} --frame {}", pid, tid, frame(&stack)));
    has_values_of(2, &second);
    let both = dwcheck_elf(&folder, &format!("stack --vars --no-source --pid {}", pid));
    assert_eq!(both.out.matches("    var initial: int = 8 ").count(), 2, "{}", both.out);
    let none = dwcheck_elf(&folder, &format!("vars --pid {} --thread 1", pid));
    assert_eq!((none.status, none.out.as_str()), (3, ""), "{}", none.error);
}
