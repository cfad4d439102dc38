//! The rules of docs/TRACE.md: what would be a false alarm isn't judged, and each rule is used where it has
//! to be.

use crate::common::trace::{may_trace_programs, trace, Traced};
use crate::common::Folder;

/// Compiles a program, runs it step by step, and finds nothing in it. A rule was used if its name isn't empty.
fn quiet(name: &str, rule: &str, compiler: &str, source: &str) -> Option<Traced> {
    if !may_trace_programs() {
        return None;
    }
    let folder = Folder::new(&format!("trace-quiet-{}", name));
    let file = if compiler.starts_with("g++") { "quiet.cc" } else { "quiet.c" };
    folder.write(file, source);
    folder.run(&format!("{} {} -o quiet", compiler, file));
    let own = folder.run("./quiet");
    let traced = trace(&folder, "--all --private --module quiet", "./quiet");
    assert_eq!((traced.status, &traced.out), (0, &own), "{}", traced.log);
    assert_eq!(traced.found(), Vec::<[String; 3]>::new(), "{}", traced.log);
    assert!(rule.is_empty() || traced.count(rule) > 0.0, "{}: {}", rule, traced.log);
    let windows = trace(&folder, "--calls 3 --private --module quiet", "./quiet");
    assert_eq!((windows.status, &windows.out), (0, &own), "{}", windows.log);
    assert_eq!(windows.found(), Vec::<[String; 3]>::new(), "{}", windows.log);
    Some(traced)
}

const JUMPS: &str = "
#include <setjmp.h>
#include <signal.h>
#include <stdio.h>
#include <string.h>
static jmp_buf place;
static sigjmp_buf outside;
static volatile int sum;
__attribute__((noinline)) static void deep(int n) {
    char text[64];
    memset(text, n, sizeof text);
    if (n == 0) longjmp(place, 1);
    deep(n - 1);
    sum += text[3];
}
static void leaves(int number) { sum += number; siglongjmp(outside, 1); }
int main(void) {
    for (int i = 0; i < 5; i++) if (setjmp(place) == 0) deep(i + 1); else sum++;
    signal(SIGUSR1, leaves);
    for (int i = 0; i < 3; i++) if (sigsetjmp(outside, 1) == 0) raise(SIGUSR1); else sum++;
    printf(\"%d\\n\", sum);
    return 0;
}
";

/// Rules \"jump-target\" and \"after-jump\".
#[test]
fn long_jumps() {
    if let Some(traced) = quiet("jumps", "jump-target", "gcc -O1", JUMPS) {
        assert!(traced.count("after-jump") > 0.0, "{}", traced.log);
    }
}

const THROWS: &str = "
#include <cstdio>
#include <stdexcept>
#include <string>
#include <vector>
struct Loud { std::string name; ~Loud() { if (name.size() > 99) __builtin_abort(); } };
__attribute__((noinline)) int thrower(int n, std::vector<int> &all) {
    Loud loud{std::to_string(n)};
    if (n == 0) throw std::runtime_error(loud.name);
    all.push_back(n);
    return thrower(n - 1, all) + all.back();
}
__attribute__((noinline)) int middle(int n) {
    std::vector<int> all;
    try { return thrower(n, all); } catch (const std::logic_error &) { return 1; }
}
int main() {
    int sum = 0;
    for (int i = 0; i < 6; i++) try { sum += middle(i % 3); } catch (const std::exception &e) {
        sum += e.what()[0];
        try { throw 5; } catch (int x) { sum += x; }
    }
    std::printf(\"%d\\n\", sum);
}
";

/// Rule \"exception-return\".
#[test]
fn exceptions() {
    quiet("throws", "exception-return", "g++ -O2", THROWS);
}

const CONTEXTS: &str = "
#include <stdio.h>
#include <ucontext.h>
static ucontext_t one, other;
static char stack[1 << 16];
static volatile int sum;
__attribute__((noinline)) static void adds(int n) { sum += n; if (n > 0) adds(n - 1); }
static void turns(void) { for (int i = 0; i < 3; i++) { adds(i); swapcontext(&other, &one); } }
int main(void) {
    getcontext(&other);
    other.uc_stack.ss_sp = stack;
    other.uc_stack.ss_size = sizeof stack;
    other.uc_link = &one;
    makecontext(&other, turns, 0);
    for (int i = 0; i < 4; i++) { swapcontext(&one, &other); adds(2); }
    printf(\"%d\\n\", sum);
    return 0;
}
";

/// Rule \"after-jump\", for stacks of contexts.
#[test]
fn contexts() {
    quiet("contexts", "after-jump", "gcc -O1", CONTEXTS);
}

/// Two stacks in the same memory, between which a function switches that is written by hand; and a third
/// one that is copied away and back, as libraries for coroutines do.
const COROUTINES: &str = "
#include <stdio.h>
#include <string.h>
__asm__(\"switch_to: push %rbx; push %rbp; push %r12; push %r13; push %r14; push %r15; mov %rsp, (%rdi); mov %rsi, %rsp;\"
    \"pop %r15; pop %r14; pop %r13; pop %r12; pop %rbp; pop %rbx; ret\");
void switch_to(void **left, void *stack);
static char stacks[2][1 << 14];
static void *places[3];
static volatile long sum;
__attribute__((noinline)) static void adds(long n) { sum += n; if (n > 0) adds(n - 1); }
static void turns(void) {
    for (long i = 0;; i++) {
        adds(i % 3);
        switch_to(&places[1], places[i % 2 ? 0 : 2]);
    }
}
static void others(void) {
    for (long i = 0;; i++) {
        adds(i % 4);
        switch_to(&places[2], places[i % 2 ? 1 : 0]);
    }
}
static void *begun(char *end, void (*function)(void)) {
    void **top = (void **)end - 2;
    top[0] = function;
    return memset(top - 6, 0, 48);
}
int main(void) {
    places[1] = begun(stacks[0] + sizeof stacks[0], turns);
    places[2] = begun(stacks[1] + sizeof stacks[1], others);
    for (int i = 0; i < 20; i++) { switch_to(&places[0], places[1 + i % 2]); adds(2); }
    printf(\"%ld\\n\", sum);
    return 0;
}
";

/// Rules \"after-jump\" and \"no-row\", for stacks that are next to each other.
#[test]
fn coroutines() {
    quiet("coroutines", "no-row", "gcc -O1", COROUTINES);
}

const SIGNALS: &str = "
#include <signal.h>
#include <stdio.h>
#include <stdlib.h>
static volatile int sum;
static void handler(int number) { char text[32]; snprintf(text, sizeof text, \"%d\", number); sum += text[0]; }
static void nested(int number) { sum += number; raise(SIGUSR1); }
int main(void) {
    stack_t stack = {.ss_sp = malloc(1 << 16), .ss_size = 1 << 16};
    sigaltstack(&stack, NULL);
    struct sigaction action = {.sa_handler = nested, .sa_flags = SA_ONSTACK};
    sigaction(SIGUSR2, &action, NULL);
    signal(SIGUSR1, handler);
    for (int i = 0; i < 3; i++) { raise(SIGUSR1); raise(SIGUSR2); }
    printf(\"%d\\n\", sum);
    return 0;
}
";

/// Frames of signals are compared with the registers that were interrupted, also on another stack.
#[test]
fn signal_frames() {
    if let Some(traced) = quiet("signals", "", "gcc -O1", SIGNALS) {
        assert_eq!(traced.count("signals"), 9.0, "{}", traced.log);
    }
}

const VFORK: &str = "
#define _GNU_SOURCE
#include <stdio.h>
#include <sys/wait.h>
#include <unistd.h>
int main(void) {
    int sum = 0;
    for (int i = 0; i < 3; i++) {
        int status;
        if (vfork() == 0) _exit(i);
        wait(&status);
        sum += WEXITSTATUS(status);
    }
    printf(\"%d\\n\", sum);
    return 0;
}
";

/// A function that pops its return address and keeps it in a register, as its row says.
#[test]
fn vfork_keeps_its_return_address() {
    if !may_trace_programs() {
        return;
    }
    quiet("vfork", "", "gcc -O1", VFORK);
    let folder = Folder::new("trace-vfork");
    folder.write("quiet.c", VFORK);
    folder.run("gcc -O1 -static quiet.c -o quiet");
    let traced = trace(&folder, "--all", "./quiet");
    assert!(!traced.found().iter().any(|[_, place, _]| place.contains("vfork")), "{}", traced.log);
}

/// A function that overwrites its return address, as code does that hides where it jumps to.
const OVERWRITES: &str = "
#include <stdio.h>
__asm__(\".globl goes\\ngoes: .cfi_startproc\\n lea 1(%rdi), %rax\\n call 1f\\n 2: pause\\n jmp 2b\\n\"
    \"1: lea 3f(%rip), %rcx\\n mov %rcx, (%rsp)\\n ret\\n 3: ret\\n .cfi_endproc\");
long goes(long);
int main(void) { printf(\"%ld\\n\", goes(1) + goes(2)); return 0; }
";

/// Rule \"moved-return-address\".
#[test]
fn overwritten_return_addresses() {
    quiet("overwrites", "moved-return-address", "gcc -O1", OVERWRITES);
}

/// `f` is left by a jump while its callee runs at full speed, and is entered again at the same depth with
/// another value of r15.
const AGAIN: &str = "
#include <setjmp.h>
#include <stdio.h>
static jmp_buf place;
__attribute__((noinline)) void callee(int n) { if (n == 1) longjmp(place, 1); __asm__ volatile(\"\"); }
__attribute__((noinline)) int f(int n) { callee(n); return n + 1; }
int with(int n, long kept);
__asm__(\"with: .cfi_startproc\\n push %r15\\n .cfi_adjust_cfa_offset 8\\n .cfi_offset r15, -16\\n mov %rsi, %r15\\n\"
    \"call f\\n pop %r15\\n .cfi_adjust_cfa_offset -8\\n .cfi_restore r15\\n ret\\n .cfi_endproc\");
int main(void) {
    volatile int sum = 0;
    callee(0);
    for (volatile int i = 1; i < 4; i++) if (setjmp(place) == 0) sum += with(i, i * 1000);
    printf(\"%d\\n\", sum);
    return 0;
}
";

/// Rule \"after-call\".
#[test]
fn a_function_that_is_entered_again() {
    if !may_trace_programs() {
        return;
    }
    quiet("again", "", "gcc -O1", AGAIN);
    let folder = Folder::new("trace-again");
    folder.write("quiet.c", AGAIN);
    folder.run("gcc -O1 quiet.c -o quiet");
    let traced = trace(&folder, "--module quiet", "./quiet");
    assert!(traced.count("after-call") > 0.0, "{}", traced.log);
    assert_eq!(traced.found(), Vec::<[String; 3]>::new(), "{}", traced.log);
}

/// A function that is called, and whose row says that its frame is the outermost one.
const OUTERMOST: &str = "
#include <stdio.h>
long ends(long);
__asm__(\"ends: .cfi_startproc\\n .cfi_undefined rip\\n lea 1(%rdi), %rax\\n ret\\n .cfi_endproc\");
int main(void) { printf(\"%ld\\n\", ends(1) + ends(2)); return 0; }
";

/// Rule "outermost".
#[test]
fn rows_without_a_return_address() {
    quiet("outermost", "outermost", "gcc -O1", OUTERMOST);
}

/// A handler that returns to code of the program's own, whose rows don't say that the frame there is that of a
/// signal.
const RETURNS: &str = "
#include <signal.h>
#include <stdio.h>
#include <sys/syscall.h>
#include <unistd.h>
struct action { void (*handler)(int); unsigned long flags; void (*restorer)(void); unsigned long mask; };
void restores(void);
__asm__(\"restores: .cfi_startproc\\n mov $15, %rax\\n syscall\\n .cfi_endproc\");
static volatile int sum;
static void handler(int number) { sum += number; }
int main(void) {
    struct action action = {handler, 0x04000000, restores, 0};
    syscall(SYS_rt_sigaction, SIGUSR1, &action, NULL, 8);
    for (int i = 0; i < 3; i++) raise(SIGUSR1);
    printf(\"%d\\n\", sum);
    return 0;
}
";

/// Rule "signal-return".
#[test]
fn handlers_that_return_to_code_without_rows_for_signals() {
    if let Some(traced) = quiet("returns", "signal-return", "gcc -O1", RETURNS) {
        assert_eq!(traced.count("signals"), 3.0, "{}", traced.log);
    }
}

/// Rule "unknown-frame": nothing is known of the frames before the first call.
#[test]
fn the_first_frames() {
    if let Some(traced) = quiet("first", "unknown-frame", "gcc -O1 -static", "int main(void) { return 0; }\n") {
        assert!(traced.count("judged") > 1000.0, "{}", traced.log);
    }
}

const STUB: &str = r#"
asm(".text\n"
    ".type stub, @function\n"
    "stub: .cfi_startproc\n"
    "pop saved(%rip)\n"
    ".cfi_adjust_cfa_offset -8\n"
    "mov %rsp, saved+8(%rip)\n"
    "sub $8, %rsp\n"
    ".cfi_adjust_cfa_offset 8\n"
    "jmp *%rax\n"
    ".cfi_endproc\n"
    ".type called, @function\n"
    "called: .cfi_startproc\n"
    "push %rbx\n"
    ".cfi_adjust_cfa_offset 8\n"
    ".cfi_offset rbx, -16\n"
    "mov %rdi, %rbx\n"
    "call strlen@plt\n"
    "movsbl (%rbx), %edx\n"
    "add %edx, %eax\n"
    "pop %rbx\n"
    ".cfi_adjust_cfa_offset -8\n"
    ".cfi_restore rbx\n"
    "ret\n"
    ".cfi_endproc\n"
    ".globl main\n"
    ".type main, @function\n"
    "main: .cfi_startproc\n"
    "sub $8, %rsp\n"
    ".cfi_adjust_cfa_offset 8\n"
    "lea called(%rip), %rax\n"
    "lea text(%rip), %rdi\n"
    "call stub\n"
    "xor %eax, %eax\n"
    "add $8, %rsp\n"
    ".cfi_adjust_cfa_offset -8\n"
    "ret\n"
    ".cfi_endproc\n"
    ".section .rodata\n"
    "text: .asciz \"abc\"\n"
    ".bss\n"
    ".balign 8\n"
    "saved: .zero 16\n"
    ".text\n");
"#;

/// Rule "after-jump": a stub pops its return address, stores it, keeps it on the stack and jumps, as OCaml's
/// `caml_c_call` does. The frame of the function that it jumps to isn't known, also after its calls.
#[test]
fn stubs_that_store_their_return_addresses() {
    quiet("stub", "after-jump", "gcc", STUB);
}

/// Programs of Go run as they are: their stacks move, so their functions aren't stepped.
#[test]
fn programs_of_go() {
    if !may_trace_programs() {
        return;
    }
    let folder = Folder::new("trace-go");
    let source = "package main\n\nimport (\"fmt\"; \"sync\")\n\n\
        func grow(n int) int { var a [64]int; if n == 0 { return 0 }; a[n%64] = n; return grow(n-1) + a[n%64] }\n\n\
        func main() {\n\tvar wait sync.WaitGroup\n\tsums := make([]int, 8)\n\
        \tfor i := range sums { wait.Add(1); go func(i int) { defer wait.Done(); sums[i] = grow(100 * i) }(i) }\n\
        \twait.Wait()\n\tfmt.Println(sums)\n}\n";
    folder.write("moves.go", source);
    let environment = "HOME=$PWD GOCACHE=$PWD/cache GOFLAGS=-p=1";
    folder.run(&format!("{} go build -ldflags=-compressdwarf=false moves.go", environment));
    let own = folder.run("./moves");
    let traced = trace(&folder, "--module moves", "./moves");
    assert_eq!((traced.status, &traced.out, traced.count("steps")), (0, &own, 0.0), "{}", traced.log);
}
