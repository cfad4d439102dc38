//! Functions in assembly with one planted defect of each kind, and the same functions with right rows.

use crate::common::assembly::{function, X86_64};
use crate::common::gimli_rows::module;
use crate::common::{has, kinds, Folder};
use dwcheck_lint::lint::lint;

#[test]
fn push_without_row() {
    let text = "push %rbx
        RIGHT .cfi_adjust_cfa_offset 8
        RIGHT .cfi_offset rbx, -16
        mov %rdi, %rbx
        add %rbx, %rbx
        mov %rbx, %rax
        pop %rbx
        RIGHT .cfi_adjust_cfa_offset -8
        RIGHT .cfi_restore rbx
        ret";
    X86_64.planted("push", "push without row", text);
}

#[test]
fn late_push() {
    let text = "push %rax
        RIGHT .cfi_adjust_cfa_offset 8
        mov %rdi, %rcx
        WRONG .cfi_adjust_cfa_offset 8
        mov %rcx, %rax
        pop %rcx
        .cfi_adjust_cfa_offset -8
        ret";
    X86_64.planted("late", "late push", text);
}

#[test]
fn pop_without_row() {
    let text = "push %rax
        .cfi_adjust_cfa_offset 8
        mov %rdi, %rax
        pop %rcx
        RIGHT .cfi_adjust_cfa_offset -8
        add %rcx, %rax
        ret";
    X86_64.planted("pop", "pop without row", text);
}

/// A `nop` after a call runs, so the row after it counts.
#[test]
fn a_rule_that_begins_after_a_call_and_a_nop() {
    let text = "sub $24, %rsp
        .cfi_adjust_cfa_offset 24
        mov %rbx, 8(%rsp)
        call *%rdi
        nop
        WRONG .cfi_offset rbx, -16
        xor %eax, %eax
        WRONG .cfi_restore rbx
        add $24, %rsp
        .cfi_adjust_cfa_offset -24
        ret";
    X86_64.planted("nop", "register never saved", text);
}

/// An addition was moved up over a conditional jump, and its row stayed on both ways.
#[test]
fn moved_epilogue() {
    let text = "sub $8, %rsp
        .cfi_adjust_cfa_offset 8
        call *%rdi
        add $8, %rsp
        RIGHT .cfi_adjust_cfa_offset -8
        test %eax, %eax
        je 1f
        WRONG .cfi_adjust_cfa_offset -8
        inc %eax
        ret
        1:
        WRONG .cfi_adjust_cfa_offset 8
        WRONG .cfi_adjust_cfa_offset -8
        dec %eax
        ret";
    X86_64.planted("moved", "moved epilogue", text);
}

/// The sign of a number is wrong, as in OpenSSL's x25519.
#[test]
fn adjustment_with_the_wrong_sign() {
    let text = "sub $88, %rsp
        .cfi_adjust_cfa_offset 88
        mov %rdi, (%rsp)
        lea 88(%rsp), %rsp
        WRONG .cfi_adjust_cfa_offset 88
        RIGHT .cfi_adjust_cfa_offset -88
        ret";
    X86_64.planted("sign", "moved epilogue", text);
}

#[test]
fn moved_prologue() {
    let text = "sub $24, %rsp
        RIGHT .cfi_adjust_cfa_offset 24
        xor %eax, %eax
        WRONG .cfi_adjust_cfa_offset 24
        mov %rax, (%rsp)
        add $24, %rsp
        .cfi_adjust_cfa_offset -24
        ret";
    X86_64.planted("prologue", "moved prologue", text);
}

#[test]
fn subtraction_without_row() {
    let text = "sub $264, %rsp
        RIGHT .cfi_adjust_cfa_offset 264
        mov %rax, (%rsp)
        add $264, %rsp
        RIGHT .cfi_adjust_cfa_offset -264
        ret";
    X86_64.planted("subtraction", "subtraction without row", text);
}

#[test]
fn wrong_row_at_jmp() {
    let text = "sub $8, %rsp
        .cfi_adjust_cfa_offset 8
        test %edi, %edi
        je 1f
        add $8, %rsp
        RIGHT .cfi_adjust_cfa_offset -8
        jmp f
        1:
        RIGHT .cfi_adjust_cfa_offset 8
        add $8, %rsp
        .cfi_adjust_cfa_offset -8
        ret";
    X86_64.planted("jmp", "wrong row at jmp", text);
}

/// What GCC 12 writes for a realigned stack: after the frame pointer is popped, the rows still find
/// rbx by it.
#[test]
fn drap_epilogue() {
    let text = "lea 8(%rsp), %r10
        .cfi_def_cfa r10, 0
        and $-32, %rsp
        push -8(%r10)
        push %rbp
        mov %rsp, %rbp
        .cfi_escape 0x10, 6, 2, 0x76, 0
        push %r10
        .cfi_escape 0x0f, 3, 0x76, 0x78, 6
        push %rbx
        .cfi_escape 0x10, 3, 2, 0x76, 0x70
        mov %rdi, %rbx
        call *%rdi
        pop %rbx
        RIGHT .cfi_restore rbx
        pop %r10
        .cfi_def_cfa r10, 0
        pop %rbp
        RIGHT .cfi_restore rbp
        lea -8(%r10), %rsp
        .cfi_restore rbx
        .cfi_restore rbp
        .cfi_def_cfa rsp, 8
        ret";
    X86_64.planted("drap", "DRAP epilogue", text);
}

#[test]
fn moved_stack_pointer() {
    let text = "push %rbp
        .cfi_adjust_cfa_offset 8
        .cfi_offset rbp, -16
        mov %rsp, %rbp
        RIGHT .cfi_def_cfa_register rbp
        sub %rdi, %rsp
        mov %rax, (%rsp)
        mov %rbp, %rsp
        pop %rbp
        .cfi_restore rbp
        .cfi_def_cfa rsp, 8
        ret";
    X86_64.planted("dynamic", "moved stack pointer", text);
}

#[test]
fn cfa_register_overwritten() {
    let text = "lea 8(%rsp), %r11
        .cfi_def_cfa r11, 0
        RIGHT .cfi_def_cfa rsp, 8
        imul %rdi, %r11
        mov %r11, %rax
        .cfi_def_cfa rsp, 8
        ret";
    X86_64.planted("overwritten", "CFA register overwritten", text);
}

/// What GCC 12 writes with -frename-registers: the row has r10, and the code has rax. The call, of a function of
/// another module, overwrites r10.
#[test]
fn cfa_register_overwritten_by_a_call() {
    let text = "lea 8(%rsp), %r10
        .cfi_def_cfa r10, 0
        and $-32, %rsp
        push -8(%r10)
        push %rbp
        mov %rsp, %rbp
        .cfi_escape 0x10, 6, 2, 0x76, 0
        push %r10
        .cfi_escape 0x0f, 3, 0x76, 0x78, 6
        call g@PLT
        mov -8(%rbp), %rax
        WRONG .cfi_def_cfa r10, 0
        RIGHT .cfi_def_cfa rax, 0
        leave
        .cfi_restore rbp
        lea -8(%rax), %rsp
        .cfi_def_cfa rsp, 8
        ret";
    X86_64.planted("renamed", "CFA register overwritten", text);
}

/// In an unlinked object, an address stands for each function of another module. What a call of it overwrites is
/// known, while code at the address, as there is here, could leave the register alone.
#[test]
fn cfa_register_overwritten_by_an_imported_function() {
    let text = "lea 8(%rsp), %r10
        .cfi_def_cfa r10, 0
        push %rax
        call g
        pop %rcx
        .cfi_def_cfa rsp, 8
        ret";
    let folder = Folder::new("imported");
    folder.write("text.s", &function(text, "g: ret"));
    if has("gcc") {
        folder.run("gcc -nostdlib -shared -o out text.s");
        let data = folder.bytes("out");
        let mut module = module(&data);
        assert_eq!(kinds(&lint(&module)), [""; 0]);
        module.sections = vec![(0, ".text")];
        module.imports.insert(module.fdes[0].end, "g");
        assert_eq!(kinds(&lint(&module)), ["CFA register overwritten"]);
    }
}

#[test]
fn cfa_register_restored() {
    let text = "push %rbp
        .cfi_adjust_cfa_offset 8
        .cfi_offset rbp, -16
        mov %rsp, %rbp
        .cfi_def_cfa_register rbp
        mov %rdi, %rax
        pop %rbp
        .cfi_restore rbp
        RIGHT .cfi_def_cfa rsp, 8
        ret";
    X86_64.planted("restored", "CFA register restored", text);
}

#[test]
fn wrong_row_at_a_join() {
    let text = "test %edi, %edi
        je 1f
        push %rax
        .cfi_adjust_cfa_offset 8
        call *%rsi
        RIGHT add $8, %rsp
        RIGHT .cfi_adjust_cfa_offset -8
        inc %eax
        WRONG .cfi_adjust_cfa_offset -8
        1: inc %ecx
        ret";
    X86_64.planted("join", "wrong row at a join", text);
}

#[test]
fn wrong_row_in_another_part() {
    let text = "sub $8, %rsp
        .cfi_adjust_cfa_offset 8
        test %edi, %edi
        je f.cold
        add $8, %rsp
        .cfi_adjust_cfa_offset -8
        ret
        .cfi_endproc
        .section .text.unlikely, \"ax\"
        .cfi_startproc
        WRONG .cfi_def_cfa_offset 24
        RIGHT .cfi_def_cfa_offset 16
        nop
        f.cold:
        call *%rsi
        ud2";
    X86_64.planted("part", "wrong row in another part", text);
}

#[test]
fn return_address() {
    let text = "push %rax
        .cfi_adjust_cfa_offset 8
        WRONG .cfi_offset rip, -16
        mov %rdi, %rax
        pop %rcx
        .cfi_adjust_cfa_offset -8
        .cfi_offset rip, -8
        ret";
    X86_64.planted("return", "return address", text);
}

#[test]
fn register_overwritten() {
    let text = "mov %rbx, %r8
        RIGHT .cfi_register rbx, r8
        xor %ebx, %ebx
        add %rdi, %rbx
        mov %rbx, %rax
        mov %r8, %rbx
        RIGHT .cfi_same_value rbx
        ret";
    X86_64.planted("changed", "register overwritten", text);
}

#[test]
fn register_never_saved() {
    let text = "push %rbx
        .cfi_adjust_cfa_offset 8
        WRONG .cfi_offset rbx, -24
        RIGHT .cfi_offset rbx, -16
        mov %rdi, %rbx
        mov %rbx, %rax
        pop %rbx
        .cfi_adjust_cfa_offset -8
        .cfi_restore rbx
        ret";
    X86_64.planted("never", "register never saved", text);
}

#[test]
fn slot_overwritten() {
    let text = "push %rbx
        .cfi_adjust_cfa_offset 8
        push %rbp
        .cfi_adjust_cfa_offset 8
        WRONG .cfi_offset rbx, -24
        WRONG .cfi_offset rbp, -16
        RIGHT .cfi_offset rbx, -16
        RIGHT .cfi_offset rbp, -24
        mov %rdi, %rbx
        mov %rdi, %rbp
        pop %rbp
        .cfi_adjust_cfa_offset -8
        .cfi_restore rbp
        pop %rbx
        .cfi_adjust_cfa_offset -8
        .cfi_restore rbx
        ret";
    X86_64.planted("slot", "slot overwritten", text);
}

/// A flag push in a frame whose CFA is in memory at the stack pointer, as in OpenSSL's Camellia.
#[test]
fn push_under_an_expression_over_the_stack_pointer() {
    let text = "mov %rsp, %rax
        .cfi_def_cfa_register rax
        sub $40, %rsp
        mov %rax, 8(%rsp)
        .cfi_escape 0x0f, 5, 0x77, 8, 6, 0x23, 8
        WRONG pushf
        WRONG cld
        WRONG popf
        mov 8(%rsp), %rax
        .cfi_def_cfa rax, 8
        mov %rax, %rsp
        .cfi_def_cfa rsp, 8
        ret";
    X86_64.planted("flags", "CFA register overwritten", text);
}

/// A register in a frame that is rounded down from the CFA, as in glibc's libmvec: it is at
/// ((CFA - 8) & -32) - 48.
#[test]
fn expressions_over_an_aligned_frame() {
    let text = "push %rbp
        .cfi_adjust_cfa_offset 8
        .cfi_offset rbp, -16
        mov %rsp, %rbp
        .cfi_def_cfa_register rbp
        and $-32, %rsp
        sub $64, %rsp
        mov %r12, 16(%rsp)
        RIGHT .cfi_escape 0x10, 12, 14, 0x38, 0x1c, 0x0d, 0xe0, 0xff, 0xff, 0xff, 0x1a, 0x0d, 0xd0, 0xff, 0xff, 0xff, 0x22
        WRONG .cfi_escape 0x10, 12, 14, 0x38, 0x1c, 0x0d, 0xe0, 0xff, 0xff, 0xff, 0x1a, 0x0d, 0xc8, 0xff, 0xff, 0xff, 0x22
        mov %rdi, %r12
        call *%rsi
        mov 16(%rsp), %r12
        .cfi_restore r12
        leave
        .cfi_restore rbp
        .cfi_def_cfa rsp, 8
        ret";
    X86_64.planted("expression", "register never saved", text);
}
