/* What can't be written in C: registers are captured and restored, and stacks are changed. Each function has rows, so
   that walks go on through it. */
#define R8_PLACE 0x28
#define R9_PLACE 0x30
#define R10_PLACE 0x38
#define R11_PLACE 0x40
#define R12_PLACE 0x48
#define R13_PLACE 0x50
#define R14_PLACE 0x58
#define R15_PLACE 0x60
#define RDI_PLACE 0x68
#define RSI_PLACE 0x70
#define RBP_PLACE 0x78
#define RBX_PLACE 0x80
#define RDX_PLACE 0x88
#define RAX_PLACE 0x90
#define RCX_PLACE 0x98
#define RSP_PLACE 0xa0
#define RIP_PLACE 0xa8
#define FLOATS_POINTER 0xe0
#define FLOATS 0x1a8
#define MXCSR_IN_FLOATS 0x18
#define RT_SIGRETURN 15

    .text

#define FUNCTION(name) .globl name; .type name, @function; .p2align 4; name: .cfi_startproc
#define END(name) .cfi_endproc; .size name, . - name

/* int _Ux86_64_getcontext(ucontext_t *): the registers as they are when it has returned. It makes no system call, so
   the signal mask of the context isn't written. */
FUNCTION(_Ux86_64_getcontext)
    movq %r8, R8_PLACE(%rdi)
    movq %r9, R9_PLACE(%rdi)
    movq %r10, R10_PLACE(%rdi)
    movq %r11, R11_PLACE(%rdi)
    movq %r12, R12_PLACE(%rdi)
    movq %r13, R13_PLACE(%rdi)
    movq %r14, R14_PLACE(%rdi)
    movq %r15, R15_PLACE(%rdi)
    movq %rdi, RDI_PLACE(%rdi)
    movq %rsi, RSI_PLACE(%rdi)
    movq %rbp, RBP_PLACE(%rdi)
    movq %rbx, RBX_PLACE(%rdi)
    movq %rdx, RDX_PLACE(%rdi)
    movq %rax, RAX_PLACE(%rdi)
    movq %rcx, RCX_PLACE(%rdi)
    leaq FLOATS(%rdi), %rax
    movq %rax, FLOATS_POINTER(%rdi)
    fnstenv (%rax)
    fldenv (%rax)
    stmxcsr MXCSR_IN_FLOATS(%rax)
    leaq 8(%rsp), %rax
    movq %rax, RSP_PLACE(%rdi)
    movq (%rsp), %rax
    movq %rax, RIP_PLACE(%rdi)
    xorl %eax, %eax
    ret
END(_Ux86_64_getcontext)

/* void _Ux86_64_setcontext(const ucontext_t *): continues with a context's registers. */
FUNCTION(_Ux86_64_setcontext)
    .cfi_undefined %rip
    movq FLOATS_POINTER(%rdi), %r8
    fldenv (%r8)
    ldmxcsr MXCSR_IN_FLOATS(%r8)
    movq R8_PLACE(%rdi), %r8
    movq R9_PLACE(%rdi), %r9
    movq R12_PLACE(%rdi), %r12
    movq R13_PLACE(%rdi), %r13
    movq R14_PLACE(%rdi), %r14
    movq R15_PLACE(%rdi), %r15
    movq RSI_PLACE(%rdi), %rsi
    movq RBP_PLACE(%rdi), %rbp
    movq RBX_PLACE(%rdi), %rbx
    movq RDX_PLACE(%rdi), %rdx
    movq RAX_PLACE(%rdi), %rax
    movq RSP_PLACE(%rdi), %rsp
    pushq RIP_PLACE(%rdi)
    movq RCX_PLACE(%rdi), %rcx
    movq RDI_PLACE(%rdi), %rdi
    ret
END(_Ux86_64_setcontext)

/* void dwcheck_unwind_continue(const uint64_t registers[17]) */
    .hidden dwcheck_unwind_continue
FUNCTION(dwcheck_unwind_continue)
    .cfi_undefined %rip
    movq 0(%rdi), %rax
    movq 8(%rdi), %rdx
    movq 16(%rdi), %rcx
    movq 24(%rdi), %rbx
    movq 32(%rdi), %rsi
    movq 48(%rdi), %rbp
    movq 64(%rdi), %r8
    movq 72(%rdi), %r9
    movq 80(%rdi), %r10
    movq 88(%rdi), %r11
    movq 96(%rdi), %r12
    movq 104(%rdi), %r13
    movq 112(%rdi), %r14
    movq 120(%rdi), %r15
    movq 56(%rdi), %rsp
    pushq 128(%rdi)
    movq 40(%rdi), %rdi
    ret
END(dwcheck_unwind_continue)

/* void dwcheck_unwind_return_from_signal(void *context): the kernel takes its context from the stack pointer. */
    .hidden dwcheck_unwind_return_from_signal
FUNCTION(dwcheck_unwind_return_from_signal)
    .cfi_undefined %rip
    movq %rdi, %rsp
    movl $RT_SIGRETURN, %eax
    syscall
    hlt
END(dwcheck_unwind_return_from_signal)

/* void dwcheck_unwind_call(void (*function)(void *), void *data, void *top) */
    .hidden dwcheck_unwind_call
FUNCTION(dwcheck_unwind_call)
    pushq %rbp
    .cfi_adjust_cfa_offset 8
    .cfi_rel_offset %rbp, 0
    movq %rsp, %rbp
    .cfi_def_cfa_register %rbp
    movq %rdx, %rsp
    movq %rdi, %rax
    movq %rsi, %rdi
    call *%rax
    movq %rbp, %rsp
    .cfi_def_cfa_register %rsp
    popq %rbp
    .cfi_adjust_cfa_offset -8
    .cfi_restore %rbp
    ret
END(dwcheck_unwind_call)

/* int unw_backtrace(void **addresses, int size): passes the caller's place, a dwcheck_register_place, with the
   others. */
FUNCTION(unw_backtrace)
    subq $72, %rsp
    .cfi_adjust_cfa_offset 72
    movq 72(%rsp), %rax
    movq %rax, 0(%rsp)
    movq %rax, 8(%rsp)
    leaq 80(%rsp), %rax
    movq %rax, 16(%rsp)
    movq %rbx, 24(%rsp)
    movq %rbp, 32(%rsp)
    movq %r12, 40(%rsp)
    movq %r13, 48(%rsp)
    movq %r14, 56(%rsp)
    movq %r15, 64(%rsp)
    movq %rsp, %rdx
    call dwcheck_unwind_addresses
    addq $72, %rsp
    .cfi_adjust_cfa_offset -72
    ret
END(unw_backtrace)

    .section .note.GNU-stack, "", @progbits
