//! Instructions that few compilers write: what they do to the frame is followed.

use crate::common::assembly::X86_64;

#[test]
fn enter_begins_a_frame() {
    let text = "enter $32, $0
        RIGHT .cfi_def_cfa rbp, 16
        WRONG .cfi_def_cfa rbp, 24
        .cfi_offset rbp, -16
        call *%rdi
        leave
        .cfi_def_cfa rsp, 8
        .cfi_restore rbp
        ret";
    X86_64.planted("enter", "wrong CFA", text);
}

/// The pointers to outer frames are on the stack, too.
#[test]
fn enter_pushes_pointers_to_outer_frames() {
    let text = "enter $16, $2
        .cfi_adjust_cfa_offset 40
        .cfi_offset rbp, -16
        call *%rdi
        leave
        .cfi_def_cfa rsp, 8
        .cfi_restore rbp
        ret";
    X86_64.judged("nested", text, "");
}

/// The stack pointer is moved by a number that the code computes.
#[test]
fn numbers_that_are_computed() {
    for (compute, bytes) in [
        ("mov $-64, %rax\nlea (%rsp, %rax), %rsp", 64),
        ("mov $-16, %rax\nlea (%rsp, %rax, 4), %rsp", 64),
        ("movabs $4096, %r11\nneg %r11\nadd %r11, %rsp", 4096),
        ("mov $-256, %eax\nneg %eax\nsub %rax, %rsp", 256),
        ("mov $255, %eax\nnot %rax\nadd %rax, %rsp", 256),
        ("mov $16, %eax\nshl $4, %eax\nsub %rax, %rsp", 256),
        ("mov $2048, %eax\nshr $3, %rax\nsub %rax, %rsp", 256),
        ("mov $128, %eax\nshl %eax\nsub %rax, %rsp", 256),
        ("mov $200, %eax\nadd $56, %eax\nsub %rax, %rsp", 256),
    ] {
        let text = format!(
            "{}
            RIGHT .cfi_adjust_cfa_offset {}
            WRONG .cfi_adjust_cfa_offset 8
            call *%rdi
            RIGHT add ${}, %rsp
            RIGHT .cfi_adjust_cfa_offset -{}
            WRONG ud2
            RIGHT ret",
            compute, bytes, bytes, bytes
        );
        X86_64.planted("computed", "moved stack pointer", &text);
        X86_64.judged("computed-right", &text.lines().filter_map(right).collect::<String>(), "");
    }
}

/// A line of a function without a defect.
fn right(line: &str) -> Option<String> {
    let line = line.trim();
    (!line.starts_with("WRONG")).then(|| line.trim_start_matches("RIGHT").to_string() + "\n")
}

/// Rows that follow: the number isn't known, but the row has it.
#[test]
fn numbers_that_only_the_row_knows() {
    for moved in ["imul $16, %rdi, %rax\nsub %rax, %rsp", "lea -64(%rsp, %rsi), %rsp", "and %rsi, %rsp"] {
        let text = format!(
            "{}
            .cfi_adjust_cfa_offset 256
            mov %rdi, (%rsp)
            add $256, %rsp
            .cfi_adjust_cfa_offset -256
            ret",
            moved
        );
        X86_64.quiet("followed", &text, "");
    }
}

/// clang's -mspeculative-load-hardening keeps in the upper bits of the stack pointer whether the processor speculates.
#[test]
fn a_hardened_stack_pointer() {
    let text = "sub $24, %rsp
        .cfi_adjust_cfa_offset 24
        mov %rsp, %rax
        sar $63, %rax
        shl $47, %rax
        or %rax, %rsp
        call *%rdi
        mov %rsp, %rcx
        sar $63, %rcx
        shl $47, %rcx
        or %rcx, %rsp
        add $24, %rsp
        .cfi_adjust_cfa_offset -24
        ret";
    X86_64.judged("hardened", text, "");
}

/// A row that follows a push, but wrongly.
#[test]
fn rows_that_change_wrongly() {
    let text = "push %rbx
        WRONG .cfi_adjust_cfa_offset 16
        RIGHT .cfi_adjust_cfa_offset 8
        .cfi_offset rbx, -16
        call *%rdi
        pop %rbx
        .cfi_def_cfa_offset 8
        .cfi_restore rbx
        ret";
    X86_64.planted("change", "wrong CFA", text);
}
