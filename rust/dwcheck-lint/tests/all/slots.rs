//! Slots along the flow: what a row says of a slot before a register is saved there, and after something else is
//! stored there.

use crate::common::assembly::X86_64;

#[test]
fn a_rule_before_the_save() {
    let text = "sub $24, %rsp
        .cfi_adjust_cfa_offset 24
        WRONG .cfi_offset rbx, -16
        call *%rdi
        mov %rbx, 16(%rsp)
        RIGHT .cfi_offset rbx, -16
        mov %eax, %ebx
        call *%rsi
        add %ebx, %eax
        mov 16(%rsp), %rbx
        .cfi_restore rbx
        add $24, %rsp
        .cfi_adjust_cfa_offset -24
        ret";
    X86_64.planted("before", "slot overwritten", text);
}

#[test]
fn a_rule_before_the_save_in_a_slot_with_a_number() {
    let text = "sub $24, %rsp
        .cfi_adjust_cfa_offset 24
        movq $5, 16(%rsp)
        WRONG .cfi_offset rbx, -16
        call *%rdi
        mov %rbx, 16(%rsp)
        RIGHT .cfi_offset rbx, -16
        mov %eax, %ebx
        call *%rsi
        add %ebx, %eax
        mov 16(%rsp), %rbx
        .cfi_restore rbx
        add $24, %rsp
        .cfi_adjust_cfa_offset -24
        ret";
    X86_64.planted("number", "slot overwritten", text);
}

#[test]
fn a_rule_before_the_push() {
    let text = "push %rbp
        .cfi_adjust_cfa_offset 8
        .cfi_offset rbp, -16
        WRONG .cfi_offset rbx, -24
        xor %ebp, %ebp
        push %rbx
        .cfi_adjust_cfa_offset 8
        RIGHT .cfi_offset rbx, -24
        xor %ebx, %ebx
        nop
        pop %rbx
        .cfi_adjust_cfa_offset -8
        .cfi_restore rbx
        pop %rbp
        .cfi_adjust_cfa_offset -8
        .cfi_restore rbp
        ret";
    X86_64.planted("early", "slot overwritten", text);
}

/// The register is saved on one of two ways, and the row where they meet says nothing that is known to be wrong.
#[test]
fn a_rule_before_the_save_on_one_way() {
    let text = "sub $24, %rsp
        .cfi_adjust_cfa_offset 24
        WRONG .cfi_offset rbx, -16
        test %edi, %edi
        je 1f
        mov %rbx, 16(%rsp)
        RIGHT .cfi_offset rbx, -16
        mov %edi, %ebx
        call *%rsi
        mov 16(%rsp), %rbx
        RIGHT .cfi_restore rbx
        1: add $24, %rsp
        .cfi_adjust_cfa_offset -24
        WRONG .cfi_restore rbx
        ret";
    X86_64.planted("one-way", "slot overwritten", text);
}

#[test]
fn a_slot_that_is_overwritten() {
    let text = "push %rbx
        .cfi_adjust_cfa_offset 8
        .cfi_offset rbx, -16
        mov %rbx, %r8
        mov %rdi, %rbx
        WRONG movl $0, 4(%rsp)
        lea (%rbx, %rbx), %rax
        mov %r8, %rbx
        .cfi_restore rbx
        pop %rcx
        .cfi_adjust_cfa_offset -8
        ret";
    X86_64.planted("overwritten", "slot overwritten", text);
}

/// Then the function doesn't give the register back, but its rows say that it does.
#[test]
fn a_slot_from_which_something_else_is_restored() {
    let text = "push %rbx
        .cfi_adjust_cfa_offset 8
        .cfi_offset rbx, -16
        mov %rdi, %rbx
        WRONG movq $0, (%rsp)
        call *%rsi
        mov %ebx, %eax
        pop %rbx
        .cfi_adjust_cfa_offset -8
        .cfi_restore rbx
        ret";
    X86_64.planted("restored", "slot overwritten", text);
}

/// A call may overwrite what is below the stack pointer.
#[test]
fn a_slot_that_a_call_may_overwrite() {
    let text = "push %rbx
        .cfi_adjust_cfa_offset 8
        .cfi_offset rbx, -16
        mov %rdi, %rbx
        pop %rbx
        .cfi_adjust_cfa_offset -8
        RIGHT .cfi_restore rbx
        call *%rsi
        inc %eax
        WRONG .cfi_restore rbx
        ret";
    X86_64.planted("below", "slot overwritten", text);
}

/// Where a register's value is stored at an address that isn't followed, it may be in any slot.
#[test]
fn stores_that_are_not_followed() {
    for address in ["lea (%rsp, %rdi, 8), %rax", "mov (%rdi), %rax"] {
        let text = format!(
            "sub $24, %rsp
            .cfi_adjust_cfa_offset 24
            {}
            mov %rbx, (%rax)
            .cfi_offset rbx, -16
            xor %ebx, %ebx
            call *%rsi
            mov 16(%rsp), %rbx
            mov %rbx, 16(%rsp)
            .cfi_restore rbx
            add $24, %rsp
            .cfi_adjust_cfa_offset -24
            test %edi, %edi
            je 1f
            sub $24, %rsp
            .cfi_adjust_cfa_offset 24
            mov %rbx, 16(%rsp)
            add $24, %rsp
            .cfi_adjust_cfa_offset -24
            1: ret",
            address
        );
        X86_64.quiet("strayed", &text, "");
    }
}

/// A callee may change a pointer that is in memory, such as that of a vector to the elements in its own frame.
#[test]
fn stores_by_pointers_from_memory() {
    let text = "push %rbx
        .cfi_adjust_cfa_offset 8
        .cfi_offset rbx, -16
        sub $64, %rsp
        .cfi_adjust_cfa_offset 64
        lea 16(%rsp), %rax
        mov %rax, (%rsp)
        mov %rsp, %rdi
        call *%rsi
        mov (%rsp), %rdx
        mov %rax, 48(%rdx)
        movq $0, 48(%rdx)
        xor %ebx, %ebx
        call *%rsi
        add $64, %rsp
        .cfi_adjust_cfa_offset -64
        pop %rbx
        .cfi_adjust_cfa_offset -8
        .cfi_restore rbx
        ret";
    X86_64.quiet("pointer", text, "");
}

/// A barrier for memory changes nothing there.
#[test]
fn barriers_on_the_stack() {
    let text = "push %rbx
        .cfi_adjust_cfa_offset 8
        .cfi_offset rbx, -16
        mov %rdi, %rbx
        lock orq $0, (%rsp)
        lock addl $0, (%rsp)
        mov %rbx, %rax
        pop %rbx
        .cfi_adjust_cfa_offset -8
        .cfi_restore rbx
        ret";
    X86_64.quiet("barrier", text, "");
}

/// By the frame pointer, a slot is overwritten as well.
#[test]
fn a_slot_that_is_overwritten_by_the_frame_pointer() {
    let text = "push %rbp
        .cfi_adjust_cfa_offset 8
        .cfi_offset rbp, -16
        mov %rsp, %rbp
        .cfi_def_cfa_register rbp
        push %rbx
        .cfi_offset rbx, -24
        mov %rbx, %r8
        mov %rdi, %rbx
        WRONG movq $0, -8(%rbp)
        lea (%rbx, %rbx), %rax
        mov %r8, %rbx
        .cfi_restore rbx
        leave
        .cfi_restore rbp
        .cfi_def_cfa rsp, 8
        ret";
    X86_64.planted("frame", "slot overwritten", text);
}

/// What is in a register that isn't known may be what was saved there.
#[test]
fn values_that_are_not_known() {
    let text = "sub $24, %rsp
        .cfi_adjust_cfa_offset 24
        mov %rbx, 16(%rsp)
        .cfi_offset rbx, -16
        mov %rbx, %rax
        test %edi, %edi
        je 1f
        mov 16(%rsp), %rax
        inc %rdi
        cmovne %rdi, %rax
        1: mov %rax, 16(%rsp)
        call *%rsi
        mov 16(%rsp), %rbx
        .cfi_restore rbx
        add $24, %rsp
        .cfi_adjust_cfa_offset -24
        ret";
    X86_64.quiet("unknown", text, "");
}

/// In the red zone a slot is still what it was.
#[test]
fn slots_below_the_stack_pointer() {
    let text = "push %rbx
        .cfi_adjust_cfa_offset 8
        .cfi_offset rbx, -16
        mov %rdi, %rbx
        mov %rbx, %rax
        pop %rbx
        .cfi_adjust_cfa_offset -8
        inc %rax
        ret";
    X86_64.quiet("red-zone", text, "");
}
