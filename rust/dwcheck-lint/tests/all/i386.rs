//! Code for i386: planted defects, arguments that callees pop, and programs by gcc and clang.

use crate::common::assembly::I386;
use crate::common::programs::C;
use crate::common::{found, has, Folder};

/// Functions that remove arguments from the stack: those that return structures, and those of conventions of their own.
const POPPING: &str = r#"
#include <stdio.h>
#include <stdlib.h>
#define KEPT __attribute__((noinline))
typedef struct { int x, y, z; } Three;
KEPT Three three(int a) { Three made = {a, a + 1, a + 2}; return made; }
KEPT __attribute__((stdcall)) int stdcalled(int a, int b, int c) { return a * b + c; }
KEPT __attribute__((fastcall)) int fastcalled(int a, int b, int c, int d) { return a * b + c - d; }
KEPT int by_pointer(Three (*make)(int), __attribute__((stdcall)) int (*call)(int, int, int), int n) {
    Three one = make(n), other = make(n + 1);
    return one.x + other.y + call(one.x, other.z, n);
}
KEPT int uses(int n) {
    int sum = 0;
    for (int i = 0; i < n; i++) {
        Three made = three(i);
        sum += made.z + stdcalled(i, made.x, 3) + fastcalled(i, 2, 3, made.y);
    }
    div_t quotient = div(sum, 7);
    return quotient.quot + printf("%d\n", quotient.rem);
}
int main(int argc, char **argv) { return uses(argc) + by_pointer(three, stdcalled, argc); }
"#;

/// The options with which programs are compiled: position-independent or not, and with frame pointers or without.
const OPTIONS: [&str; 4] = ["-fPIE -pie", "-fno-pie -no-pie", "-fno-omit-frame-pointer", "-fomit-frame-pointer"];

#[test]
fn a_push_without_a_row() {
    let text = "push %ebx
        RIGHT .cfi_adjust_cfa_offset 4
        RIGHT .cfi_offset ebx, -8
        mov 8(%esp), %ebx
        mov %ebx, %eax
        pop %ebx
        RIGHT .cfi_adjust_cfa_offset -4
        RIGHT .cfi_restore ebx
        ret";
    I386.planted("push", "push without row", text);
}

#[test]
fn a_late_push() {
    let text = "push %eax
        RIGHT .cfi_adjust_cfa_offset 4
        mov 8(%esp), %ecx
        WRONG .cfi_adjust_cfa_offset 4
        mov %ecx, %eax
        pop %ecx
        .cfi_adjust_cfa_offset -4
        ret";
    I386.planted("late", "late push", text);
}

#[test]
fn a_pop_without_a_row() {
    let text = "push %eax
        .cfi_adjust_cfa_offset 4
        mov 8(%esp), %eax
        pop %ecx
        RIGHT .cfi_adjust_cfa_offset -4
        add %ecx, %eax
        ret";
    I386.planted("pop", "pop without row", text);
}

#[test]
fn a_subtraction_without_a_row() {
    let text = "sub $264, %esp
        RIGHT .cfi_adjust_cfa_offset 264
        mov %eax, (%esp)
        add $264, %esp
        RIGHT .cfi_adjust_cfa_offset -264
        ret";
    I386.planted("subtraction", "subtraction without row", text);
}

#[test]
fn a_moved_epilogue() {
    let text = "sub $12, %esp
        .cfi_adjust_cfa_offset 12
        call f
        add $12, %esp
        RIGHT .cfi_adjust_cfa_offset -12
        test %eax, %eax
        je 1f
        WRONG .cfi_adjust_cfa_offset -12
        inc %eax
        ret
        1:
        WRONG .cfi_adjust_cfa_offset 12
        WRONG .cfi_adjust_cfa_offset -12
        dec %eax
        ret";
    I386.planted("moved", "moved epilogue", text);
}

#[test]
fn a_frame_pointer_without_a_row() {
    let text = "push %ebp
        .cfi_adjust_cfa_offset 4
        .cfi_offset ebp, -8
        mov %esp, %ebp
        RIGHT .cfi_def_cfa_register ebp
        sub %eax, %esp
        mov %eax, (%esp)
        leave
        .cfi_restore ebp
        .cfi_def_cfa esp, 4
        ret";
    I386.planted("dynamic", "moved stack pointer", text);
}

#[test]
fn a_register_in_another_slot() {
    let text = "push %ebx
        .cfi_adjust_cfa_offset 4
        push %esi
        .cfi_adjust_cfa_offset 4
        WRONG .cfi_offset ebx, -12
        WRONG .cfi_offset esi, -8
        RIGHT .cfi_offset ebx, -8
        RIGHT .cfi_offset esi, -12
        mov 12(%esp), %ebx
        mov %ebx, %esi
        pop %esi
        .cfi_adjust_cfa_offset -4
        .cfi_restore esi
        pop %ebx
        .cfi_adjust_cfa_offset -4
        .cfi_restore ebx
        ret";
    I386.planted("slot", "slot overwritten", text);
}

#[test]
fn a_register_that_is_never_saved() {
    let text = "push %ebx
        .cfi_adjust_cfa_offset 4
        WRONG .cfi_offset ebx, -12
        RIGHT .cfi_offset ebx, -8
        mov 8(%esp), %ebx
        mov %ebx, %eax
        pop %ebx
        .cfi_adjust_cfa_offset -4
        .cfi_restore ebx
        ret";
    I386.planted("never", "register never saved", text);
}

/// As glibc's system calls do: ebx has the first argument, and its value is in edx.
#[test]
fn a_register_kept_in_another_without_a_row() {
    let text = "mov %ebx, %edx
        RIGHT .cfi_register ebx, edx
        mov 4(%esp), %ebx
        mov $91, %eax
        int $0x80
        mov %edx, %ebx
        RIGHT .cfi_same_value ebx
        ret";
    I386.planted("system", "register overwritten", text);
}

/// The stack is realigned: the row finds the CFA by ecx, and then by the copy of ecx at ebp-4.
#[test]
fn a_realigned_stack() {
    let text = "lea 4(%esp), %ecx
        .cfi_def_cfa ecx, 0
        and $-16, %esp
        push -4(%ecx)
        push %ebp
        mov %esp, %ebp
        .cfi_escape 0x10, 5, 2, 0x75, 0
        push %ecx
        RIGHT .cfi_escape 0x0f, 3, 0x75, 0x7c, 6
        WRONG .cfi_escape 0x0f, 3, 0x75, 0x78, 6
        call f
        mov -4(%ebp), %ecx
        .cfi_def_cfa ecx, 0
        leave
        .cfi_restore ebp
        lea -4(%ecx), %esp
        .cfi_def_cfa esp, 4
        ret";
    I386.planted("realigned", "CFA register overwritten", text);
}

/// A call of the next instruction is a push: code finds its own address so, and by that a table of jumps.
#[test]
fn code_that_finds_its_own_address() {
    let text = "call 1f
        1: RIGHT .cfi_adjust_cfa_offset 4
        pop %ecx
        RIGHT .cfi_adjust_cfa_offset -4
        cmpl $1, 4(%esp)
        ja 4f
        mov 4(%esp), %eax
        mov 5f-1b(%ecx, %eax, 4), %eax
        lea 5f-1b(%ecx), %ecx
        add %ecx, %eax
        jmp *%eax
        2: ret
        3: push %eax
        .cfi_adjust_cfa_offset 4
        pop %eax
        .cfi_adjust_cfa_offset -4
        4: ret";
    let table = "
        .section .rodata
        5: .long 2b-5b, 3b-5b";
    let whole = |kept: &str, dropped: &str| {
        let lines = text.lines().filter(|line| !line.contains(dropped) || line.contains("1:"));
        let lines = lines.map(|line| if line.contains(dropped) { "1:" } else { line });
        lines.map(|line| line.replace(kept, "")).collect::<Vec<_>>().join("\n")
    };
    I386.judged("own", &whole("RIGHT ", "WRONG"), table);
    if let Some(found) = I386.found("own", &whole("WRONG ", "RIGHT"), table) {
        assert_eq!(found.kinds, ["push without row"]);
    }
}

/// The callee pops its argument, so that the row after the call is right only if it says so.
#[test]
fn arguments_that_the_callee_pops() {
    let text = "push $1
        .cfi_adjust_cfa_offset 4
        call popping
        RIGHT .cfi_adjust_cfa_offset -4
        mov $2, %eax
        WRONG .cfi_adjust_cfa_offset -4
        ret
        .cfi_endproc
        popping:
        .cfi_startproc
        mov 4(%esp), %eax
        ret $4";
    I386.planted("popped", "wrong row at a block", text);
}

/// What a function that is called by a pointer pops is what the rows say. In a frame that is found by ebp they say
/// nothing, so that nothing is found there by the stack pointer.
#[test]
fn arguments_that_are_perhaps_popped() {
    I386.judged(
        "pointer",
        "push $1
        .cfi_adjust_cfa_offset 4
        call *%eax
        .cfi_adjust_cfa_offset -4
        mov $2, %eax
        ret",
        "",
    );
    I386.quiet(
        "frame",
        "push %ebp
        .cfi_adjust_cfa_offset 4
        .cfi_offset ebp, -8
        mov %esp, %ebp
        .cfi_def_cfa_register ebp
        push %ebx
        .cfi_offset ebx, -12
        push $1
        call *%eax
        pop %ebx
        .cfi_restore ebx
        pop %ebp
        .cfi_restore ebp
        .cfi_def_cfa esp, 4
        ret",
        "",
    );
}

/// A `nop` after the call runs, so the row after it says what the callee has popped before.
#[test]
fn arguments_that_were_popped_before_a_nop() {
    let text = "push $1
        .cfi_adjust_cfa_offset 4
        call *%eax
        RIGHT .cfi_adjust_cfa_offset -4
        nop
        WRONG .cfi_adjust_cfa_offset -4
        mov $2, %eax
        ret";
    I386.planted("popped-before-nop", "wrong row at a block", text);
}

/// An FDE that begins before the padding in front of the function, as in glibc's `_dl_runtime_resolve_shstk`.
#[test]
fn padding_before_a_function_that_is_not_called() {
    let text = "nop
        nop
        .cfi_adjust_cfa_offset 8
        push %eax
        .cfi_adjust_cfa_offset 4
        pop %eax
        .cfi_adjust_cfa_offset -4
        ret $8";
    I386.quiet("padding", text, "");
}

#[test]
fn programs_by_gcc_and_clang() {
    let folder = Folder::new("i386");
    folder.write("a.c", C);
    for compiler in ["gcc", "clang"].into_iter().filter(|compiler| has(compiler)) {
        for level in ["-O0", "-O1", "-O2"] {
            for option in OPTIONS {
                let line = format!("{} -m32 -w {} {} a.c -o out", compiler, level, option);
                let found = found(&folder, &line);
                assert_eq!(found.kinds, [""; 0], "{}", line);
                // The first instructions of a program are in the outermost frame.
                let (judged, all) = (found.coverage.judged, found.coverage.instructions);
                assert!(all - judged <= 20, "{}: {} of {}", line, judged, all);
            }
        }
    }
}

/// gcc has a row for each callee that pops. clang has none for the instructions up to the subtraction that takes the
/// bytes back, at which gdb 13 finds no caller.
#[test]
fn functions_that_pop_by_gcc_and_clang() {
    let folder = Folder::new("i386-popping");
    folder.write("a.c", POPPING);
    for level in ["-O0", "-O1", "-O2"].into_iter().filter(|_| has("gcc")) {
        for option in OPTIONS {
            let line = format!("gcc -m32 -w {} {} a.c -o out", level, option);
            assert_eq!(found(&folder, &line).kinds, [""; 0], "{}", line);
        }
    }
    if has("clang") {
        let found = found(&folder, "clang -m32 -w -O0 -fomit-frame-pointer a.c -o out");
        assert!(
            !found.kinds.is_empty() && found.kinds.iter().all(|kind| kind == "wrong row at a block"),
            "{:?}",
            found.kinds
        );
    }
}
