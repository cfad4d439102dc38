//! The rules that prevent false alarms, each with a program whose rows are right, and in which something
//! would be found without the rule.

use crate::common::assembly::{function, X86_64};
use crate::common::gimli_rows::module;
use crate::common::{kinds, Folder};
use dwcheck_lint::lint::lint;
use dwcheck_lint::module::Convention;

/// A function that loses its stack pointer, and then calls. If the call returned, the stack pointer
/// wouldn't be known after it.
fn loses_its_stack(call: &str) -> String {
    let body = "push %rbp
        .cfi_adjust_cfa_offset 8
        .cfi_offset rbp, -16
        mov %rsp, %rbp
        .cfi_def_cfa_register rbp
        test %edi, %edi
        jne 1f
        mov (%rsi), %rsp
        CALL
        1: mov %edi, %eax
        .cfi_def_cfa rsp, 16
        pop %rbp
        .cfi_restore rbp
        .cfi_adjust_cfa_offset -8
        ret";
    body.replace("CALL", call)
}

/// Calls that don't return: no way through the callee leads to a return.
#[test]
fn calls_that_never_return_by_their_code() {
    let after = "ends:\n.cfi_startproc\ntest %edi, %edi\nje ends\nud2\n.cfi_endproc\n";
    X86_64.judged("ends", &loses_its_stack("call ends"), after);
}

/// Calls that don't return: by the name, through a pointer of the global offset table.
#[test]
fn calls_that_never_return_by_their_name() {
    X86_64.judged("abort", &loses_its_stack("call *abort@GOTPCREL(%rip)"), "");
}

/// Row changes after the call.
#[test]
fn a_row_that_changes_after_a_call() {
    let body = "test %edi, %edi
        jne 1f
        push %rax
        .cfi_adjust_cfa_offset 8
        call *%rsi
        .cfi_adjust_cfa_offset -8
        1: mov %edi, %eax
        ret";
    X86_64.quiet("changes", body, "");
    let unreached = "push %rax
        .cfi_adjust_cfa_offset 8
        call *%rsi
        .cfi_adjust_cfa_offset -8
        mov %edi, %eax
        ret";
    X86_64.quiet("changes-unreached", unreached, "");
}

/// Row changes after the call: also where the code that follows it is aligned.
#[test]
fn a_row_that_changes_at_aligned_code_after_a_call() {
    let body = "push %rax
        .cfi_adjust_cfa_offset 8
        call *%rsi
        .p2align 4
        .cfi_adjust_cfa_offset -8
        mov %edi, %eax
        ret";
    X86_64.quiet("changes-aligned", body, "");
}

/// Padding: after a call that doesn't return.
#[test]
fn padding_after_a_call() {
    let body = "test %edi, %edi
        jne 1f
        push %rax
        .cfi_adjust_cfa_offset 8
        call *%rsi
        nopw 0(%rax,%rax)
        .cfi_adjust_cfa_offset -8
        1: mov %edi, %eax
        ret";
    X86_64.quiet("padding", body, "");
    let unreached = "push %rax
        .cfi_adjust_cfa_offset 8
        call *%rsi
        nopw 0(%rax,%rax)
        .cfi_adjust_cfa_offset -8
        1: dec %edi
        jne 1b
        ret";
    X86_64.quiet("padding-unreached", unreached, "");
}

/// Padding: code after it that nothing reaches is taken up from its own row.
#[test]
fn code_after_padding() {
    let body = "mov %edi, %eax
        ret
        nopw 0(%rax,%rax)
        .cfi_adjust_cfa_offset 8
        mov %edi, %eax
        add $8, %rsp
        .cfi_adjust_cfa_offset -8
        ret";
    X86_64.quiet("after-padding", body, "");
}

/// Padding: a cold part that begins with a nop, which nothing reaches.
#[test]
fn a_cold_part_that_begins_with_padding() {
    let body = "push %rbx
        .cfi_adjust_cfa_offset 8
        .cfi_offset rbx, -16
        mov %rdi, %rbx
        test %edi, %edi
        je f.cold
        pop %rbx
        .cfi_adjust_cfa_offset -8
        .cfi_restore rbx
        ret";
    let after = ".section .text.unlikely, \"ax\"
        .cfi_startproc
        .cfi_def_cfa_offset 24
        nop
        .cfi_def_cfa_offset 16
        .cfi_offset rbx, -16
        f.cold: call *%rsi
        ud2
        .cfi_endproc";
    X86_64.quiet("cold", body, after);
}

/// Soft edges: what a call leads to, if it returns, doesn't change what is known from a jump.
#[test]
fn a_jump_counts_more_than_a_call() {
    let body = "push %rbp
        .cfi_adjust_cfa_offset 8
        .cfi_offset rbp, -16
        mov %rsp, %rbp
        .cfi_def_cfa_register rbp
        test %edi, %edi
        jne 1f
        push %rax
        call *%rsi
        1: pop %rbp
        .cfi_restore rbp
        .cfi_def_cfa rsp, 8
        ret";
    X86_64.judged("soft", body, "");
}

/// Exits: system calls that don't return.
#[test]
fn system_calls_that_end_the_program() {
    let body = "test %edi, %edi
        jne 1f
        push %rdi
        .cfi_adjust_cfa_offset 8
        mov $231, %eax
        syscall
        .cfi_adjust_cfa_offset -8
        1: mov %edi, %eax
        ret";
    X86_64.quiet("exit", body, "");
}

/// Bounded tables: the entries after the bound belong to something else. Their rows fit, but what is known
/// of the stack pointer would be lost.
#[test]
fn tables_end_at_the_bound() {
    let body = "push %rbp
        .cfi_adjust_cfa_offset 8
        .cfi_offset rbp, -16
        mov %rsp, %rbp
        .cfi_def_cfa_register rbp
        cmp $1, %edi
        ja 3f
        lea table(%rip), %rdx
        movslq (%rdx,%rdi,4), %rax
        add %rdx, %rax
        notrack jmp *%rax
        1: mov $1, %eax
        leave
        .cfi_remember_state
        .cfi_def_cfa rsp, 8
        .cfi_restore rbp
        ret
        2: .cfi_restore_state
        mov $2, %eax
        leave
        .cfi_remember_state
        .cfi_def_cfa rsp, 8
        .cfi_restore rbp
        ret
        3: .cfi_restore_state
        push %rax
        4: call *%rsi
        pop %rcx
        pop %rbp
        .cfi_def_cfa rsp, 8
        .cfi_restore rbp
        ret";
    let after = ".section .rodata\ntable: .long 1b-table, 2b-table, 4b-table, 4b-table\n";
    X86_64.judged("bound", body, after);
}

/// Bounded tables: a table without a bound ends where another one begins. Its entries would lead here to an
/// instruction whose row fits, but what is known of the stack pointer after it would be lost.
#[test]
fn tables_end_at_another_table() {
    let body = "push %rbp
        .cfi_adjust_cfa_offset 8
        .cfi_offset rbp, -16
        mov %rsp, %rbp
        .cfi_def_cfa_register rbp
        1: mov (%rsi), %edi
        test %edi, %edi
        je 2f
        lea first(%rip), %rdx
        movslq (%rdx,%rdi,4), %rax
        add %rdx, %rax
        notrack jmp *%rax
        2: push %rax
        lea second(%rip), %rdx
        movslq (%rdx,%rdi,4), %rax
        lea first(%rip), %rcx
        add %rcx, %rax
        notrack jmp *%rax
        3: call *%rsi
        pop %rcx
        pop %rbp
        .cfi_def_cfa rsp, 8
        .cfi_restore rbp
        ret";
    let after = ".section .rodata\nfirst: .long 1b-first, 1b-first\nsecond: .long 3b-first, 3b-first\n";
    X86_64.judged("tables", body, after);
}

/// Bounded tables: without a bound, the table ends where an entry doesn't fit.
#[test]
fn entries_that_do_not_fit_are_past_the_end() {
    let body = "mov (%rsi), %edi
        lea table(%rip), %rdx
        movslq (%rdx,%rdi,4), %rax
        add %rdx, %rax
        notrack jmp *%rax
        1: mov $1, %eax
        ret
        2: mov $2, %eax
        ret
        3: push %rax
        .cfi_adjust_cfa_offset 8
        4: call *%rsi
        pop %rcx
        .cfi_adjust_cfa_offset -8
        ret";
    let after = ".section .rodata\ntable: .long 1b-table, 2b-table, 4b-table, 4b-table\n";
    X86_64.quiet("unbound", body, after);
}

/// Bounded tables: without a bound, the table ends where an entry doesn't lead to an instruction. The third entry
/// leads into the number of a `mov`, whose bytes are four pushes.
#[test]
fn tables_end_where_an_entry_leads_to_no_instruction() {
    let body = "mov (%rsi), %edi
        lea table(%rip), %rdx
        movslq (%rdx,%rdi,4), %rax
        add %rdx, %rax
        notrack jmp *%rax
        1: mov $0x50505050, %eax
        ret
        2: mov $2, %eax
        ret";
    let after = ".section .rodata\ntable: .long 1b-table, 2b-table, 1b+1-table\n";
    X86_64.quiet("inside", body, after);
}

/// Default of a switch: the jump out of the function isn't taken.
#[test]
fn the_default_of_a_switch_can_lead_anywhere() {
    let body = "push %rbx
        .cfi_adjust_cfa_offset 8
        .cfi_offset rbx, -16
        mov %rdi, %rbx
        cmp $1, %edi
        ja other
        lea table(%rip), %rdx
        movslq (%rdx,%rdi,4), %rax
        add %rdx, %rax
        notrack jmp *%rax
        1: mov $1, %eax
        2: pop %rbx
        .cfi_adjust_cfa_offset -8
        .cfi_restore rbx
        ret";
    let after = "nop
        .type other, @function
        other:
        .cfi_startproc
        mov %edi, %eax
        ret
        .cfi_endproc
        .section .rodata\ntable: .long 1b-table, 2b-table\n";
    X86_64.quiet("default", body, after);
}

/// Unreachable end: a jump to where the next function begins, because nothing is there.
#[test]
fn jumps_to_the_end_of_a_function() {
    let body = "push %rbx
        .cfi_adjust_cfa_offset 8
        .cfi_offset rbx, -16
        mov %rdi, %rbx
        test %edi, %edi
        je next
        pop %rbx
        .cfi_adjust_cfa_offset -8
        .cfi_restore rbx
        ret";
    let after = "next:\n.cfi_startproc\nmov %edi, %eax\nret\n.cfi_endproc";
    X86_64.quiet("end", body, after);
}

/// Registers that the callee leaves alone: the caller makes use of what the callee doesn't write.
#[test]
fn registers_that_a_callee_does_not_write() {
    let body = "lea 8(%rsp), %r11
        .cfi_def_cfa r11, 0
        and $-32, %rsp
        call leaf
        lea -8(%r11), %rsp
        .cfi_def_cfa rsp, 8
        ret";
    let after = "leaf:\n.cfi_startproc\nmov %edi, %eax\nret\n.cfi_endproc";
    X86_64.judged("callee", body, after);
}

/// Loops that probe the stack: the comparison at the end says where the stack pointer is.
#[test]
fn a_comparison_that_ends_a_loop() {
    let body = "lea -32768(%rsp), %r11
        .cfi_def_cfa r11, 32776
        1: sub $4096, %rsp
        movq $0, (%rsp)
        cmp %r11, %rsp
        jne 1b
        .cfi_def_cfa_register rsp
        add $32768, %rsp
        .cfi_def_cfa_offset 8
        ret";
    X86_64.judged("probe", body, "");
}

/// Two ways bring different stack pointers, as in the loops of OpenSSL that touch each page of a large frame.
/// After that, the frame is found by what is stored in it.
#[test]
fn frames_after_ways_that_bring_different_stack_pointers() {
    let body = "mov %rsp, %rax
        .cfi_def_cfa_register rax
        lea -64(%rsp,%rdi,8), %r10
        and $-1024, %r10
        mov %rsp, %r11
        sub %r10, %r11
        and $-4096, %r11
        lea (%r10,%r11), %rsp
        1: cmp %r10, %rsp
        jbe 2f
        lea -4096(%rsp), %rsp
        mov (%rsp), %r11
        jmp 1b
        2: mov %rax, 40(%rsp)
        .cfi_escape 0x0f, 5, 0x77, 40, 0x06, 0x23, 8
        call *%rsi
        mov 40(%rsp), %rsi
        .cfi_def_cfa rsi, 8
        lea (%rsi), %rsp
        .cfi_def_cfa_register rsp
        ret";
    X86_64.judged("joined", body, "");
}

/// A table of exceptions for the calls from `begin` to `end`, which go on at `pad`.
const AREA: &str = "personality: ret
    .section .gcc_except_table, \"a\"
    area: .byte 0xff, 0xff, 1
    .uleb128 sites_end - sites
    sites: .uleb128 begin - f
    .uleb128 end - begin
    .uleb128 pad - f
    .uleb128 0
    sites_end:";

/// A function with a call that throws to a landing pad, with an argument on the stack.
fn throws(directive: &str) -> String {
    let body = "sub $8, %rsp
        .cfi_personality 0x1b, personality
        .cfi_lsda 0x1b, area
        .cfi_adjust_cfa_offset 8
        push %rax
        .cfi_adjust_cfa_offset 8
        DIRECTIVE
        begin: call *%rsi
        end: add $16, %rsp
        .cfi_adjust_cfa_offset -16
        ret
        .cfi_adjust_cfa_offset 8
        pad: mov %rax, %rdi
        call *%rsi
        ud2";
    body.replace("DIRECTIVE", directive)
}

/// Calls that can't throw: the landing pad doesn't know of the argument.
#[test]
fn landing_pads_of_calls_that_cannot_throw() {
    X86_64.quiet("no-throw", &throws(""), AREA);
}

/// The table says how many bytes of arguments are on the stack, and the landing pad is entered without them.
#[test]
fn arguments_of_calls_that_throw() {
    X86_64.judged("arguments", &throws(".cfi_escape 0x2e, 8"), AREA);
}

/// Calls that can't throw: the landing pad's row is right for the first call, before rbx is saved, and wrong for
/// the second one.
#[test]
fn landing_pads_that_fit_another_call() {
    let body = "sub $24, %rsp
        .cfi_personality 0x1b, personality
        .cfi_lsda 0x1b, area
        .cfi_adjust_cfa_offset 24
        begin: call *%rsi
        mov %rbx, 8(%rsp)
        .cfi_offset rbx, -24
        mov %rdi, %rbx
        call *%rsi
        end: mov 8(%rsp), %rbx
        .cfi_restore rbx
        add $24, %rsp
        .cfi_adjust_cfa_offset -24
        ret
        .cfi_adjust_cfa_offset 24
        pad: mov %rax, %rdi
        call *%rsi
        ud2";
    X86_64.quiet("other-call", body, AREA);
}

/// Parts that fit: a jump for which the row of a part is wrong isn't taken, if it is right for another.
#[test]
fn parts_that_fit_one_jump() {
    let body = "sub $8, %rsp
        .cfi_adjust_cfa_offset 8
        test %edi, %edi
        je f.cold
        add $8, %rsp
        .cfi_adjust_cfa_offset -8
        test %esi, %esi
        je f.cold
        ret";
    let after = ".section .text.unlikely, \"ax\"
        nop
        .cfi_startproc
        .cfi_def_cfa_offset 16
        f.cold: call *%rsi
        ud2
        .cfi_endproc";
    X86_64.quiet("fits", body, after);
}

/// Assumptions: what is taken up from a row doesn't merge into code that was reached.
#[test]
fn assumptions_stay_apart() {
    let body = "push %rbp
        .cfi_adjust_cfa_offset 8
        .cfi_offset rbp, -16
        mov %rsp, %rbp
        .cfi_def_cfa_register rbp
        1: mov %edi, %eax
        .cfi_remember_state
        pop %rbp
        .cfi_restore rbp
        .cfi_def_cfa rsp, 8
        ret
        .cfi_restore_state
        inc %edi
        jmp 1b";
    X86_64.judged("regions", body, "");
}

/// Moved frame: the return address is copied elsewhere, as in libffi, and so is the frame.
#[test]
fn frames_that_are_moved() {
    let body = "mov (%rsp), %r10
        mov %r10, 16(%rdi)
        lea (%rdi,%rdi), %r11
        .cfi_def_cfa r11, 24
        mov %rsi, %rax
        .cfi_def_cfa rsp, 8
        ret";
    X86_64.quiet("moved-frame", body, "");
}

/// Data in code: bytes between instructions of a function that was written by hand.
#[test]
fn data_between_instructions() {
    let body = "push %rax
        .cfi_adjust_cfa_offset 8
        call *%rsi
        pop %rcx
        .cfi_adjust_cfa_offset -8
        ret
        .quad 0
        .cfi_adjust_cfa_offset 24
        .quad 0
        .byte 0x06
        .cfi_adjust_cfa_offset 24
        .byte 0x0e";
    X86_64.quiet("data", body, "");
}

/// Data in code: bytes that aren't an instruction, after a system call whose number isn't known.
#[test]
fn data_after_a_system_call() {
    let body = "push %rdi
        .cfi_adjust_cfa_offset 8
        mov %edx, %eax
        syscall
        .cfi_adjust_cfa_offset 24
        .byte 0x06";
    X86_64.quiet("data-reached", body, "");
}

/// What isn't judged: where `longjmp` goes to, `__builtin_eh_return`, the outermost frame.
#[test]
fn rows_that_are_not_judged() {
    X86_64.quiet(
        "longjmp",
        "mov %rdi, %rsp\n.cfi_def_cfa rdi, 0\n.cfi_offset rsp, 8\nmov (%rdi), %rbp\njmp *8(%rdi)",
        "",
    );
    X86_64.quiet("outermost", ".cfi_undefined rip\npop %rdi\nxor %ebp, %ebp\ncall *%rsi\nhlt", "");
    X86_64.quiet("eh-return", ".cfi_offset rax, -16\n.cfi_offset rdx, -24\npush %rax\nmov %rcx, %rsp\njmp *%rdx", "");
}

/// Functions that keep no register: only the CFA and the return address are judged in code of OCaml.
#[test]
fn conventions_without_kept_registers() {
    let body = "mov %rbx, %r8\nxor %ebx, %ebx\nmov %r8, %rbx\nret";
    let folder = Folder::new("convention");
    folder.write("text.s", &function(body, ""));
    folder.run("gcc -nostdlib -shared -o out text.s");
    let data = folder.bytes("out");
    let mut module = module(&data);
    assert_eq!(kinds(&lint(&module)), ["register overwritten"]);
    module.convention = Convention::KeepsNone;
    assert_eq!(kinds(&lint(&module)), [""; 0]);
}

/// Private: a function that never gives a register back, by a convention of its own.
#[test]
fn registers_that_are_never_given_back() {
    X86_64.quiet("private", "xor %ebx, %ebx\nadd %rdi, %rbx\nret", "");
    X86_64.quiet("private-saved", "mov %rbx, %r8\nxor %ebx, %ebx\nadd %r8, %rbx\nret", "");
    // It never returns, or jumps to code without an FDE in the place of a return.
    X86_64.quiet("private-end", "xor %ebx, %ebx\ncall *%rsi\nud2", "");
    X86_64.quiet("private-jump", "mov %rbx, %r8\nxor %ebx, %ebx\nadd %r8, %rbx\njmp other", "other: ret");
}
