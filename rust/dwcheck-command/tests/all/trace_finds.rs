//! Defects that are planted, or that compilers make, and that `trace` finds when the program runs.

use crate::common::trace::{may_trace_programs, trace, Traced};
use crate::common::Folder;

/// Functions in assembly. A line `WRONG text` is there only with the defect, and a line `RIGHT text` only
/// without it.
const PLANTED: &str = "
        .text
        push_no_row: .cfi_startproc
        push %rbx
        RIGHT .cfi_adjust_cfa_offset 8
        RIGHT .cfi_offset rbx, -16
        mov %rdi, %rbx
        lea 1(%rbx), %rax
        pop %rbx
        RIGHT .cfi_adjust_cfa_offset -8
        RIGHT .cfi_restore rbx
        ret
        .cfi_endproc

        late_row: .cfi_startproc
        push %rbx
        RIGHT .cfi_adjust_cfa_offset 8
        RIGHT .cfi_offset rbx, -16
        mov %rdi, %rax
        WRONG .cfi_adjust_cfa_offset 8
        WRONG .cfi_offset rbx, -16
        inc %rax
        pop %rbx
        .cfi_adjust_cfa_offset -8
        .cfi_restore rbx
        ret
        .cfi_endproc

        not_saved: .cfi_startproc
        push %rbx
        .cfi_adjust_cfa_offset 8
        RIGHT .cfi_offset rbx, -16
        mov %rdi, %rbx
        lea 1(%rbx), %rax
        pop %rbx
        .cfi_adjust_cfa_offset -8
        RIGHT .cfi_restore rbx
        ret
        .cfi_endproc

        other_slot: .cfi_startproc
        push %rbx
        .cfi_adjust_cfa_offset 8
        RIGHT .cfi_offset rbx, -16
        WRONG .cfi_offset rbx, -24
        movq $0x1234, -8(%rsp)
        mov %rdi, %rbx
        lea 1(%rbx), %rax
        pop %rbx
        .cfi_adjust_cfa_offset -8
        .cfi_restore rbx
        ret
        .cfi_endproc

        pop_no_row: .cfi_startproc
        push %rax
        .cfi_adjust_cfa_offset 8
        mov %rdi, %rax
        pop %rcx
        RIGHT .cfi_adjust_cfa_offset -8
        inc %rax
        ret
        .cfi_endproc

        wrong_sign: .cfi_startproc
        sub $88, %rsp
        .cfi_adjust_cfa_offset 88
        lea 1(%rdi), %rax
        add $88, %rsp
        RIGHT .cfi_adjust_cfa_offset -88
        WRONG .cfi_adjust_cfa_offset 88
        ret
        .cfi_endproc

        sub_no_row: .cfi_startproc
        sub $264, %rsp
        RIGHT .cfi_adjust_cfa_offset 264
        lea 1(%rdi), %rax
        add $264, %rsp
        RIGHT .cfi_adjust_cfa_offset -264
        ret
        .cfi_endproc

        sub_register: .cfi_startproc
        push %rbp
        .cfi_adjust_cfa_offset 8
        .cfi_offset rbp, -16
        mov %rsp, %rbp
        RIGHT .cfi_def_cfa_register rbp
        mov $64, %eax
        sub %rax, %rsp
        lea 1(%rdi), %rax
        mov %rbp, %rsp
        pop %rbp
        RIGHT .cfi_def_cfa rsp, 8
        WRONG .cfi_adjust_cfa_offset -8
        .cfi_restore rbp
        ret
        .cfi_endproc

        own_convention: .cfi_startproc
        inc %rbx
        lea 1(%rdi), %rax
        ret
        .cfi_endproc

        .globl main
        main: .cfi_startproc
        push %rbx
        .cfi_adjust_cfa_offset 8
        .cfi_offset rbx, -16
        mov $0x5a5a5a, %ebx
        mov $1, %edi
        call push_no_row
        mov %rax, %rdi
        call late_row
        mov %rax, %rdi
        call not_saved
        mov %rax, %rdi
        call other_slot
        mov %rax, %rdi
        call pop_no_row
        mov %rax, %rdi
        call wrong_sign
        mov %rax, %rdi
        call sub_no_row
        mov %rax, %rdi
        call sub_register
        mov %rax, %rdi
        call own_convention
        pop %rbx
        .cfi_adjust_cfa_offset -8
        .cfi_restore rbx
        ret
        .cfi_endproc
        .section .note.GNU-stack,\"\",@progbits
";

/// The text without the lines that begin with `dropped`, and without the word `kept`.
fn variant(text: &str, kept: &str, dropped: &str) -> String {
    let lines = text.lines().filter(|line| !line.trim_start().starts_with(dropped));
    lines.map(|line| line.replacen(kept, "", 1)).collect::<Vec<_>>().join("\n")
}

fn built(name: &str, kept: &str, dropped: &str) -> Folder {
    let folder = Folder::new(name);
    folder.write("planted.s", variant(PLANTED, kept, dropped));
    folder.run("gcc planted.s -o planted");
    folder
}

/// Each defect is found, by its kind and where it begins, and nothing else is; the program's status is its
/// own.
#[test]
fn planted_defects_are_found() {
    if !may_trace_programs() {
        return;
    }
    let folder = built("trace-planted", "WRONG", "RIGHT");
    for options in ["", "--all "] {
        let traced = trace(&folder, &format!("{}--module planted", options), "./planted");
        assert_eq!(traced.status, 10, "{}", traced.log);
        let mut found = traced.found();
        found.sort();
        let expected = [
            ("late push", "late_row+0x1", "backtrace broken"),
            ("moved epilogue", "wrong_sign+0xc", "backtrace broken"),
            ("moved stack pointer", "sub_register+0xc", "backtrace broken"),
            ("pop without row", "pop_no_row+0x5", "backtrace broken"),
            ("push without row", "push_no_row+0x1", "backtrace broken"),
            ("register overwritten", "not_saved+0x4", "register lost"),
            ("slot overwritten", "other_slot+0x1", "register lost"),
            ("subtraction without row", "sub_no_row+0x7", "backtrace broken"),
        ];
        let expected: Vec<_> = expected.map(|(kind, place, how)| [kind, place, how].map(String::from)).into();
        assert_eq!(found, expected, "{}", traced.log);
    }
}

/// Each function has a line with its bytes, those that were judged, and how many of its rows are wrong, also one that
/// doesn't run.
#[test]
fn functions_are_counted() {
    if !may_trace_programs() {
        return;
    }
    let folder = Folder::new("trace-functions");
    let unused = "never: .cfi_startproc\n lea 1(%rdi), %rax\n ret\n .cfi_endproc\n";
    folder.write("planted.s", variant(PLANTED, "WRONG", "RIGHT") + "\n.text\n" + unused);
    folder.run("gcc planted.s -o planted");
    let traced = trace(&folder, "--functions --module planted", "./planted");
    let of = |name: &str| {
        let line = traced.log.lines().find(|line| line.contains(&format!("/planted: {} (0x", name)));
        line.and_then(|line| line.rsplit_once("): ")).map(|(_, counts)| counts.to_string())
    };
    assert_eq!(of("late_row").as_deref(), Some("bytes 9 judged-bytes 9 wrong 1"), "{}", traced.log);
    assert_eq!(of("sub_no_row").as_deref(), Some("bytes 19 judged-bytes 19 wrong 2"), "{}", traced.log);
    assert_eq!(of("never").as_deref(), Some("bytes 5 judged-bytes 0 wrong 0"), "{}", traced.log);
    let traced = trace(&folder, "--functions --json --module planted", "./planted");
    assert!(traced.log.contains("\"name\":\"never\",\"bytes\":5,\"judged-bytes\":0,\"wrong\":0}}"), "{}", traced.log);
}

/// Nothing is found where the rows are right, and a register that a function never gives back is shown only
/// if that is asked for.
#[test]
fn right_rows_are_quiet() {
    if !may_trace_programs() {
        return;
    }
    let folder = built("trace-right", "RIGHT", "WRONG");
    let traced = trace(&folder, "--module planted", "./planted");
    assert_eq!(traced.found(), Vec::<[String; 3]>::new(), "{}", traced.log);
    let traced = trace(&folder, "--all --private --module planted", "./planted");
    let found = traced.found();
    assert!(found.iter().any(|[_, place, _]| place == "own_convention+0x3"), "{}", traced.log);
    assert!(found.iter().all(|[kind, ..]| kind == "private"), "{}", traced.log);
}

/// What clang 14 does to two epilogues (docs/findings/moved-epilogue.md).
const HOIST: &str = include_str!("hoist.c");

/// What GCC does to the epilogue of a function with a realigned stack and an array of variable size
/// (docs/findings).
const DRAP: &str = "
typedef double v4 __attribute__((vector_size(32)));
__attribute__((noinline)) void use(void *p) { __asm__ volatile(\"\" :: \"r\"(p) : \"memory\"); }
__attribute__((noinline)) double f(long a, long b, long c, long d, long e, long g, double *x, long n) {
    char vla[n * 16]; use(vla);
    v4 acc[4] = {{0}};
    for (long i = 0; i < n; i++) { use(acc); acc[i & 3] += (v4){ x[i], a, b, c }; x[i] += d + e + g; }
    use(acc); return acc[0][0] + acc[1][1] + acc[2][2] + acc[3][3];
}
int main(void) { double x[8] = { 1 }; return f(1, 2, 3, 4, 5, 6, x, 8) == 3.5; }
";

/// The defects of compilers are found at the addresses at which gdb loses `main`.
#[test]
fn defects_of_compilers_are_found() {
    if !may_trace_programs() {
        return;
    }
    let folder = Folder::new("trace-compilers");
    folder.write("hoist.c", HOIST);
    folder.write("drap.c", DRAP);
    folder.run("clang -O2 hoist.c -o hoist && gcc -O2 -mavx2 drap.c -o drap");
    let traced = trace(&folder, "--calls 2 --module hoist", "./hoist");
    assert_eq!(kinds_in_f(&traced), [("moved epilogue", "backtrace broken")], "{}", traced.log);
    let traced = trace(&folder, "--module drap", "./drap");
    let found = traced.found();
    assert!(found.iter().any(|[kind, place, _]| kind == "DRAP epilogue" && place.starts_with("f+")), "{}", traced.log);
}

fn kinds_in_f(traced: &Traced) -> Vec<(&str, &str)> {
    let lines = traced.log.lines().filter(|line| line.contains(" at f+"));
    let kind = |line: &'_ str| if line.contains(": moved epilogue at ") { "moved epilogue" } else { "other" };
    let how = |line: &'_ str| if line.contains(": backtrace broken: ") { "backtrace broken" } else { "other" };
    lines.map(|line| (kind(line), how(line))).collect()
}

/// `lint --confirm` steps the functions with findings: what runs is confirmed, and what doesn't isn't reached.
#[test]
fn findings_of_the_lint_are_confirmed() {
    if !may_trace_programs() {
        return;
    }
    let folder = Folder::new("trace-confirm");
    let unused =
        "never: .cfi_startproc\n push %rbx\n mov %rdi, %rbx\n mov %rbx, %rax\n pop %rbx\n ret\n .cfi_endproc\n";
    folder.write("planted.s", variant(PLANTED, "WRONG", "RIGHT") + "\n.text\n" + unused);
    folder.run("gcc planted.s -o planted");
    let ran = crate::common::run::dwcheck_elf(&folder, "lint planted --confirm -- ./planted");
    assert_eq!(ran.status, 1, "{}{}", ran.out, ran.error);
    let said: Vec<_> = ran.lines();
    let confirmed = said.iter().filter(|line| line.starts_with("    run: confirmed: wrong 1 of 1 times")).count();
    assert_eq!(said.last(), Some(&"findings 9 confirmed 8 refuted 0 not-reached 1"), "{}{}", ran.out, ran.error);
    assert_eq!(confirmed, 8, "{}", ran.out);
    let never = said.iter().position(|line| line.contains(" at never+0x1")).unwrap();
    assert!(said[never..].contains(&"    run: not reached"), "{}", ran.out);
}

/// A function whose callee stores a register in its frame. The lint takes a callee to leave that alone.
const REFUTED: &str = ".text
    .globl main
    .type main, @function
    main: .cfi_startproc
    sub $24, %rsp
    .cfi_adjust_cfa_offset 24
    mov %rbx, 8(%rsp)
    call keep
    nop
    .cfi_offset rbx, -16
    xor %eax, %eax
    .cfi_restore rbx
    add $24, %rsp
    .cfi_adjust_cfa_offset -24
    ret
    .cfi_endproc
    .size main, .-main
    .type keep, @function
    keep: .cfi_startproc
    mov %rbx, 24(%rsp)
    ret
    .cfi_endproc
    .size keep, .-keep
    .section .note.GNU-stack,\"\",@progbits
";

/// What is refuted is a defect of the lint, so the status doesn't say that something is found.
#[test]
fn findings_that_are_refuted_are_not_in_the_status() {
    if !may_trace_programs() {
        return;
    }
    let folder = Folder::new("trace-refuted");
    folder.write("refuted.s", REFUTED);
    folder.run("gcc refuted.s -o refuted");
    let ran = crate::common::run::dwcheck_elf(&folder, "lint refuted --confirm -- ./refuted");
    let said: Vec<_> = ran.lines();
    assert_eq!(said.last(), Some(&"findings 1 confirmed 0 refuted 1 not-reached 0"), "{}{}", ran.out, ran.error);
    assert_eq!(ran.status, 0, "{}{}", ran.out, ran.error);
}

/// A library with a defect.
const LIBRARY: &str = "
        .globl loaded
        .type loaded, @function
        loaded: .cfi_startproc
        push %rbx
        mov %rdi, %rbx
        lea 1(%rbx), %rax
        pop %rbx
        ret
        .cfi_endproc
        .section .note.GNU-stack,\"\",@progbits
";

/// Loads the library, calls it and unloads it, three times.
const LOADS: &str = "
#include <dlfcn.h>
#include <stdio.h>
int main(void) {
    long sum = 0;
    for (int i = 0; i < 3; i++) {
        void *library = dlopen(\"./library.so\", RTLD_NOW);
        sum += ((long (*)(long))dlsym(library, \"loaded\"))(i);
        dlclose(library);
    }
    printf(\"%ld\\n\", sum);
    return 0;
}
";

/// Libraries that a program loads later are stepped too, each time when they are loaded, also if the dynamic
/// linker is stepped meanwhile.
#[test]
fn libraries_that_are_loaded_later() {
    if !may_trace_programs() {
        return;
    }
    let folder = Folder::new("trace-loads");
    folder.write("library.s", LIBRARY);
    folder.write("loads.c", LOADS);
    folder.run("gcc -shared library.s -o library.so && gcc loads.c -o loads -ldl");
    for options in ["--module library.so", "--module library.so --all", ""] {
        let traced = trace(&folder, &format!("--calls 3 {}", options), "./loads");
        assert_eq!((traced.status, traced.out.as_str()), (0, "6\n"), "{}", traced.log);
        let found = traced.found();
        let found: Vec<_> = found.iter().filter(|[_, place, _]| place.starts_with("loaded+")).collect();
        let expected = ["push without row", "loaded+0x1", "backtrace broken"].map(String::from);
        assert_eq!(found, [&expected], "{}: {}", options, traced.log);
        assert!(traced.log.contains("    run: wrong 3 of 3 times"), "{}: {}", options, traced.log);
    }
}
