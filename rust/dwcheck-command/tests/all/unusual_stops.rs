//! Stacks of programs in the middle of something: a prologue, a signal handler, a child of vfork, a
//! process that has lost a thread or its file. The expected frames are those of gdb or eu-stack, or those
//! that the program's source implies.

use crate::common::cores::{addresses, by_eu_stack, by_gdb, frames, stop};
use crate::common::run::dwcheck_elf;
use crate::common::{has, Folder};

/// A function in which a signal comes at its first byte, after its push, and before its return.
fn interrupted(at: usize) -> String {
    let mark = |place| if at == place { " ud2\n" } else { "" };
    format!(
        ".globl f\n.type f, @function\nf: .cfi_startproc\n{} push %rbx\n .cfi_adjust_cfa_offset 8\n .cfi_offset %rbx, -16\n{} \
         mov $7, %ebx\n mov %ebx, %eax\n pop %rbx\n .cfi_adjust_cfa_offset -8\n .cfi_restore %rbx\n{} ret\n .cfi_endproc\n\
         .size f, . - f\n.section .note.GNU-stack, \"\", @progbits\n",
        mark(0), mark(1), mark(2)
    )
}

const HANDLED: &str = "
#include <signal.h>
#include <stdlib.h>
extern int f(void);
static void handler(int n) { if (n) abort(); }
__attribute__((noinline)) static int calls(void) { return f() + 1; }
int main(void) { signal(SIGILL, handler); return calls() + 1; }
";

#[test]
fn a_signal_in_a_prologue_and_in_an_epilogue() {
    let folder = Folder::new("edge-prologue");
    if !has("gdb") || !has("eu-stack") {
        return;
    }
    folder.write("main.c", HANDLED);
    for at in 0..3 {
        folder.write("f.s", interrupted(at));
        folder.run("gcc -O1 main.c f.s -o program");
        folder.crash("./program");
        let ran = dwcheck_elf(&folder, "stack --no-inline --no-source core");
        let shown = frames(&ran.out);
        assert_eq!(addresses(&shown), by_gdb(&folder, "program"), "{}", ran.out);
        assert_eq!(addresses(&shown), by_eu_stack(&folder, "program"), "{}", ran.out);
        let place = shown.iter().position(|line| line.contains(" f+") || line.contains(" f (")).unwrap();
        assert!(shown[place + 1].contains(" calls+") && !ran.out.contains("guess"), "{}", ran.out);
    }
}

/// Ends in the way that its argument names.
const WAYS: &str = r#"
#define _GNU_SOURCE
#include <pthread.h>
#include <setjmp.h>
#include <signal.h>
#include <stdlib.h>
#include <string.h>
#include <sys/wait.h>
#include <unistd.h>
static sigjmp_buf saved;
__attribute__((noinline)) static int faulty(volatile int *address) { return *address + 1; }
static void faults(int n) { faulty((volatile int *)(long)n); }
static void jumps(int n) { siglongjmp(saved, n); }
__attribute__((noinline)) static int jumped(int n) {
    if (sigsetjmp(saved, 1) == 0) return faulty((volatile int *)(long)n);
    abort();
}
__attribute__((noinline)) static int child(int n) {
    if (vfork() == 0) abort();
    wait(&n);
    return n;
}
static void *aborts(void *main) { pthread_join(*(pthread_t *)main, NULL); usleep(100000); abort(); }
int main(int c, char **v) {
    const char *way = v[1];
    if (!strcmp(way, "fault")) { signal(SIGSEGV, faults); return faulty((volatile int *)(long)c) + 1; }
    if (!strcmp(way, "jump")) { signal(SIGSEGV, jumps); return jumped(c) + 1; }
    if (!strcmp(way, "vfork")) return child(c) * 0 + 1;
    if (!strcmp(way, "exit")) {
        static pthread_t self, thread;
        self = pthread_self();
        pthread_create(&thread, NULL, aborts, &self);
        pthread_exit(NULL);
    }
    if (!strcmp(way, "deleted")) { unlink(v[0]); abort(); }
    return 0;
}
"#;

/// Builds the program `ways`. Returns false if a tool isn't installed.
fn build(folder: &Folder, flags: &str) -> bool {
    folder.write("ways.c", WAYS);
    folder.run(&format!("gcc -O1 {} ways.c -o ways -pthread", flags));
    has("gdb") && has("eu-stack")
}

/// A fault in the handler of a fault, and a handler that has been left by siglongjmp. The program is also
/// linked without `.eh_frame_hdr`, as C libraries for small systems link them.
#[test]
fn handlers_that_fault_and_jump() {
    let folder = Folder::new("edge-handlers");
    for flags in ["", "-static -Wl,--no-eh-frame-hdr"] {
        if !build(&folder, flags) {
            return;
        }
        for (way, name, count) in [("fault", " faulty", 2), ("jump", " jumped+", 1)] {
            folder.crash(&format!("./ways {}", way));
            let ran = dwcheck_elf(&folder, "stack --no-inline --no-source core");
            let shown = frames(&ran.out);
            assert_eq!(addresses(&shown), by_gdb(&folder, "ways"), "{} {}: {}", flags, way, ran.out);
            assert_eq!(ran.out.matches(name).count(), count, "{} {}: {}", flags, way, ran.out);
            assert!(ran.out.contains(" main+") && !ran.out.contains("guess"), "{}", ran.out);
        }
    }
}

/// A child of vfork, which runs on its parent's stack.
#[test]
fn a_child_of_vfork() {
    let folder = Folder::new("edge-vfork");
    if !build(&folder, "") {
        return;
    }
    folder.run("rm -f core core.*; (ulimit -c unlimited; ./ways vfork) > /dev/null 2>&1 || true; mv core.* core 2> /dev/null || true");
    if !folder.file("core").exists() {
        return crate::common::skipped("the kernel writes no core files here");
    }
    let ran = dwcheck_elf(&folder, "stack --no-inline --no-source core");
    let shown = frames(&ran.out);
    assert_eq!(addresses(&shown), by_eu_stack(&folder, "ways"), "{}", ran.out);
    assert!(ran.out.contains(" child+") && ran.out.contains(" main+") && !ran.out.contains("guess"), "{}", ran.out);
}

/// The first thread has ended, and another one aborts.
#[test]
fn a_process_without_its_first_thread() {
    let folder = Folder::new("edge-exit");
    if !build(&folder, "") {
        return;
    }
    folder.crash("./ways exit");
    let ran = dwcheck_elf(&folder, "stack --no-inline --no-source core");
    let shown = frames(&ran.out);
    assert_eq!((ran.status, ran.error.as_str()), (0, ""), "{}", ran.out);
    assert_eq!(addresses(&shown), by_eu_stack(&folder, "ways"), "{}", ran.out);
    assert!(ran.out.contains(" aborts+") && !ran.out.contains("guess"), "{}", ran.out);
}

/// The program's file has been deleted: its frames have no names and no rows. Nothing else is lost, and
/// nothing is wrong.
#[test]
fn a_file_that_was_deleted() {
    let folder = Folder::new("edge-deleted");
    if !build(&folder, "") {
        return;
    }
    folder.run("cp ways kept");
    folder.crash("./ways deleted");
    let ran = dwcheck_elf(&folder, "stack --no-inline --no-source core");
    assert!(ran.status == 0 && ran.error.contains(&folder.file("ways").display().to_string()), "{}", ran.error);
    let found = by_gdb(&folder, "kept");
    let shown = frames(&ran.out);
    let shown = addresses(&shown);
    assert!(shown.len() >= 4 && found.iter().zip(&shown).take(4).all(|(one, other)| one == other), "{}", ran.out);
    assert!(ran.out.contains(" abort+") && !ran.out.contains("/ways)"), "{}", ran.out);
    assert!(!stop(&ran.out).is_empty());
    let given = dwcheck_elf(&folder, "stack --no-inline --no-source kept core");
    let shown = frames(&given.out);
    assert_eq!(addresses(&shown), found, "{}{}", given.out, given.error);
}

/// A null pointer in a goroutine, whose panic ends the process by a signal. gdb and eu-stack end at the
/// code to which the handler returns.
const GO: &str = "package main
type pair struct{ x, y int }
//go:noinline
func inner(p *pair, n int) int { return p.y + n }
//go:noinline
func outer(p *pair, n int) int { return inner(p, n) + 1 }
func main() {
	done := make(chan int)
	go func() { done <- outer(nil, 3) }()
	<-done
}
";

/// Go's handler returns to code that no row covers. `runtime.sigpanic` isn't called: the handler puts it in
/// the place of the first byte of `inner`.
#[test]
fn a_panic_of_go() {
    let folder = Folder::new("edge-go");
    if !has("go") {
        return;
    }
    folder.write("a.go", GO);
    folder.run("HOME=$PWD GO111MODULE=off GOTOOLCHAIN=local go build -o program a.go");
    folder.run(
        "(ulimit -c unlimited; GOTRACEBACK=crash ./program) > /dev/null 2>&1 || mv core.* core 2> /dev/null || true",
    );
    if !folder.file("core").exists() {
        return crate::common::skipped("the kernel writes no core files here");
    }
    let ran = dwcheck_elf(&folder, "stack --no-inline --no-source core");
    let of_thread = ran.out.split("thread ").find(|stack| stack.contains(" runtime.sigreturn")).unwrap();
    let names: Vec<_> =
        frames(of_thread).iter().map(|line| line.split([' ', '+']).nth(1).unwrap_or("").to_string()).collect();
    let place =
        |name: &str| names.iter().position(|one| one == name).unwrap_or_else(|| panic!("{}{}", name, of_thread));
    let signal = names.iter().position(|one| one.starts_with("runtime.sigreturn")).unwrap();
    assert!(frames(of_thread)[signal + 1].ends_with(" guess: signal return"), "{}", of_thread);
    let panics = place("runtime.sigpanic");
    assert!(signal < panics && panics + 1 == place("main.inner") && panics + 2 == place("main.outer"), "{}", of_thread);
    assert_eq!(of_thread.matches(" guess: ").count(), 1, "{}", of_thread);
}

/// C is called from Go, calls back, and Go's code crashes there, or the C that it calls.
const CGO: &str = "package main
/*
void inner(int n);
__attribute__((noinline)) static void outer(int n) { volatile int k = n; inner(n); k++; }
__attribute__((noinline)) static int crash(long n) { volatile int k = n; return *(volatile int *)n + k; }
*/
import \"C\"
import \"os\"
//export inner
func inner(n C.int) {
	var p *int
	if n == 2 { C.crash(16) } else { *p = 1 }
}
//go:noinline
func start(n int) { C.outer(C.int(n)) }
func main() { start(len(os.Args)) }
";

/// From C back to Go, the frames are gdb's up to the first function of the goroutine. Go has put the first address
/// of `runtime.systemstack_switch` where a return address is. From Go to C, the stack is another one, which no row
/// says; gdb goes on with what it finds there.
#[test]
fn a_crash_in_go_that_c_has_called() {
    let folder = Folder::new("edge-cgo");
    if !["go", "gdb"].iter().all(|tool| has(tool)) {
        return;
    }
    folder.write("a.go", CGO);
    folder.run("HOME=$PWD GO111MODULE=off GOTOOLCHAIN=local CGO_ENABLED=1 go build -o program a.go");
    for (words, caller) in [("", " main.main+"), (" 2", " runtime.asmcgocall")] {
        folder.run(&format!(
            "rm -f core; (ulimit -c unlimited; GOTRACEBACK=crash ./program{}) > /dev/null 2>&1 || mv core.* core 2> /dev/null || true",
            words
        ));
        if !folder.file("core").exists() {
            return crate::common::skipped("the kernel writes no core files here");
        }
        let ran = dwcheck_elf(&folder, "stack --no-inline --no-source core");
        let shown = frames(ran.out.split("\nthread ").nth(1).unwrap());
        let place = shown.iter().position(|line| line.contains(caller)).unwrap_or_else(|| panic!("{}", ran.out));
        let found = by_gdb(&folder, "program");
        assert_eq!(addresses(&shown[..=place]), found[..=place], "{}", ran.out);
        assert!(shown[..=place].iter().all(|line| !line.contains(" guess: frame")), "{}", ran.out);
    }
}

/// qemu's own code, to which handlers return, has no row. The frames are those that the source implies.
#[test]
fn a_handler_of_aarch64() {
    let folder = Folder::new("edge-aarch64");
    if !["aarch64-linux-gnu-gcc", "qemu-aarch64"].iter().all(|tool| has(tool)) {
        return;
    }
    folder.write("main.c", HANDLED.replace("SIGILL", "SIGSEGV"));
    folder.write("f.c", "int f(void) { return *(volatile int *)16 + 1; }\n");
    folder.run("aarch64-linux-gnu-gcc -O1 -static main.c f.c -o program");
    folder.run("ulimit -c unlimited; qemu-aarch64 ./program 2> /dev/null || mv qemu_program_*.core core");
    let ran = dwcheck_elf(&folder, "stack program core");
    let shown = frames(&ran.out);
    let handler = shown.iter().position(|line| line.contains(" handler+")).unwrap_or_else(|| panic!("{}", ran.out));
    assert!(
        shown[handler + 2].contains(" f+0x4 ") && shown[handler + 2].ends_with(" guess: signal return"),
        "{}",
        ran.out
    );
    assert!(shown[handler + 3].contains(" calls+") && shown[handler + 4].contains(" main+"), "{}", ran.out);
    assert_eq!(ran.out.matches(" guess: ").count(), 1, "{}", ran.out);
}

/// What an entry of a procedure linkage table pushes, and rows like those of glibc's `_dl_runtime_resolve`, to which it
/// jumps: they count from that function's first instruction.
const FIRST_CALL: &str = r#"
__asm__(".text\n.balign 4\nfirst_call: stp x16, x30, [sp, #-16]!\nb resolve\n.type resolve, %function\n"
        "resolve: .cfi_startproc\n.cfi_rel_offset 30, 8\nsub sp, sp, #208\n.cfi_adjust_cfa_offset 208\nbl f\n"
        "add sp, sp, #208\n.cfi_adjust_cfa_offset -208\nldp x16, x30, [sp], #16\nret\n.cfi_endproc\n"
        ".size resolve, . - resolve");
int first_call(void);
__attribute__((noipa)) int f(void) { return *(volatile int *)16 + 1; }
__attribute__((noipa)) static int calls(int n) { volatile int kept = n; return first_call() + kept; }
int main(int n) { return calls(n) + 1; }
"#;

/// The caller's stack pointer is above what was pushed, though the rows say another one.
#[test]
fn a_first_look_up_of_a_symbol_on_aarch64() {
    let folder = Folder::new("edge-first-call");
    if !["aarch64-linux-gnu-gcc", "qemu-aarch64"].iter().all(|tool| has(tool)) {
        return;
    }
    folder.write("a.c", FIRST_CALL);
    folder.run("aarch64-linux-gnu-gcc -O1 -static a.c -o program");
    folder.run("ulimit -c unlimited; qemu-aarch64 ./program 2> /dev/null || mv qemu_program_*.core core");
    let ran = dwcheck_elf(&folder, "stack --no-source program core");
    let shown = frames(&ran.out);
    for (line, name) in shown.iter().zip([" f+", " resolve+", " calls+", " main+"]) {
        assert!(line.contains(name), "{}", ran.out);
    }
    assert!(shown.len() > 5 && !ran.out.contains(" guess: "), "{}", ran.out);
}
