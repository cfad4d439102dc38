/* What can't be written in C: registers are captured and restored, and stacks are changed. */
#include "assembler.h"
#define REGISTERS_PLACE 184
#define SP_PLACE 432
#define PC_PLACE 440
#define PSTATE_PLACE 448
#define RT_SIGRETURN 139
#define SIGINFO 128

    .text

/* int _Uaarch64_getcontext(unw_context_t *): the registers as they are when it has returned. It makes no system call,
   so the signal mask of the context isn't written, and no register of floating-point numbers is. */
FUNCTION(_Uaarch64_getcontext)
    BTI_C
    stp x0, x1, [x0, #REGISTERS_PLACE]
    stp x2, x3, [x0, #REGISTERS_PLACE + 16]
    stp x4, x5, [x0, #REGISTERS_PLACE + 32]
    stp x6, x7, [x0, #REGISTERS_PLACE + 48]
    stp x8, x9, [x0, #REGISTERS_PLACE + 64]
    stp x10, x11, [x0, #REGISTERS_PLACE + 80]
    stp x12, x13, [x0, #REGISTERS_PLACE + 96]
    stp x14, x15, [x0, #REGISTERS_PLACE + 112]
    stp x16, x17, [x0, #REGISTERS_PLACE + 128]
    stp x18, x19, [x0, #REGISTERS_PLACE + 144]
    stp x20, x21, [x0, #REGISTERS_PLACE + 160]
    stp x22, x23, [x0, #REGISTERS_PLACE + 176]
    stp x24, x25, [x0, #REGISTERS_PLACE + 192]
    stp x26, x27, [x0, #REGISTERS_PLACE + 208]
    stp x28, x29, [x0, #REGISTERS_PLACE + 224]
    mov x9, sp
    str x30, [x0, #REGISTERS_PLACE + 240]
    str x9, [x0, #SP_PLACE]
    str x30, [x0, #PC_PLACE]
    str xzr, [x0, #PSTATE_PLACE]
    mov x0, #0
    ret
END(_Uaarch64_getcontext)

/* void dwcheck_unwind_continue(const uint64_t registers[34]): all are read before the stack pointer moves, since a
   signal's frame may overwrite what is below it. A call has returned where it goes on, so x16 and x17 aren't needed,
   and x30 has that address. */
    .hidden dwcheck_unwind_continue
FUNCTION(dwcheck_unwind_continue)
    .cfi_undefined x30
    ldp x2, x3, [x0, #16]
    ldp x4, x5, [x0, #32]
    ldp x6, x7, [x0, #48]
    ldp x8, x9, [x0, #64]
    ldp x10, x11, [x0, #80]
    ldp x12, x13, [x0, #96]
    ldp x14, x15, [x0, #112]
    ldp x18, x19, [x0, #144]
    ldp x20, x21, [x0, #160]
    ldp x22, x23, [x0, #176]
    ldp x24, x25, [x0, #192]
    ldp x26, x27, [x0, #208]
    ldp x28, x29, [x0, #224]
    ldp x16, x30, [x0, #248]
    ldp x0, x1, [x0]
    mov sp, x16
    ret
END(dwcheck_unwind_continue)

/* void dwcheck_unwind_return_from_signal(void *context): the kernel finds its context above the stack pointer. */
    .hidden dwcheck_unwind_return_from_signal
FUNCTION(dwcheck_unwind_return_from_signal)
    .cfi_undefined x30
    sub sp, x0, #SIGINFO
    mov x8, #RT_SIGRETURN
    svc #0
    udf #0
END(dwcheck_unwind_return_from_signal)

/* void dwcheck_unwind_call(void (*function)(void *), void *data, void *top) */
    .hidden dwcheck_unwind_call
FUNCTION(dwcheck_unwind_call)
    SIGN
    PUSH_FRAME
    mov x29, sp
    .cfi_def_cfa_register x29
    mov sp, x2
    mov x9, x0
    mov x0, x1
    blr x9
    mov sp, x29
    .cfi_def_cfa_register sp
    POP_FRAME
    AUTHENTICATE
    ret
END(dwcheck_unwind_call)

/* int unw_backtrace(void **addresses, int size): passes the caller's place, a dwcheck_dl_place, with the others. */
FUNCTION(unw_backtrace)
    BTI_C
    mov x9, x30
    SIGN
    PUSH_FRAME
    add x10, sp, #16
    sub sp, sp, #128
    .cfi_def_cfa_offset 144
    stp x9, x9, [sp]
    stp x10, x19, [sp, #16]
    stp x20, x21, [sp, #32]
    stp x22, x23, [sp, #48]
    stp x24, x25, [sp, #64]
    stp x26, x27, [sp, #80]
    stp x28, x29, [sp, #96]
    str xzr, [sp, #112]
    add x29, sp, #128
    mov x2, sp
    bl dwcheck_unwind_addresses
    add sp, sp, #128
    .cfi_def_cfa_offset 16
    POP_FRAME
    AUTHENTICATE
    ret
END(unw_backtrace)

NOTES
