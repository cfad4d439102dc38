/* For the tests of libunwind's calls: what they need of the processor, in assembler and by numbers of registers. */
#ifndef UNWIND_PROCESSOR_H
#define UNWIND_PROCESSOR_H

#include "dwcheck-unwind.h"

#include <stdbool.h>

/* WITHOUT_ROW defines a function with a frame pointer and without a row, which calls compare_guess. */
void without_row(void);

#if defined(__x86_64__)

#define LOCAL "_ULx86_64_"
#define OTHER "_Ux86_64_"
static const int saved[] = {UNW_X86_64_RBX, UNW_X86_64_RBP, UNW_X86_64_RSP, UNW_X86_64_R12,
                            UNW_X86_64_R13, UNW_X86_64_R14, UNW_X86_64_R15, UNW_X86_64_RIP};
enum { SMALL_STACK = 12000, REGISTERS = 20, KEPT_NUMBER = UNW_X86_64_RBX, GUESSES_ARE_THEIRS = 1 };
#define KEPT_NAME "rbx"
#define REGISTER(CONTEXT, NUMBER) ((CONTEXT)->uc_mcontext.gregs[NUMBER])
enum { GENERAL_REGISTERS = REG_RIP + 1 };

#define WITHOUT_ROW                                                                                                           \
    __asm__(".text\n.globl without_row\n.type without_row, @function\nwithout_row: push %rbp\nmov %rsp, %rbp\ncall compare_guess\n" \
            "pop %rbp\nret\n.size without_row, . - without_row\n")

/* The entry of the PLT by which this program calls raise; and makes a context that of a call which has come there. */
static inline unw_word_t entry_of_raise(void) {
    unw_word_t entry;
    __asm__("lea raise@PLT(%%rip), %0" : "=r"(entry));
    return entry;
}

static inline void come_to(unw_context_t *context, unw_word_t entry, unw_word_t *stack) {
    stack[0] = (unw_word_t)REGISTER(context, REG_RIP);
    REGISTER(context, REG_RIP) = (greg_t)entry, REGISTER(context, REG_RSP) = (greg_t)stack;
}
enum { PUSHED_BY_CALL = 8 };

/* sub $24, %rsp; call *%rdi; add $24, %rsp; ret. After 4 bytes the CFA is rsp + 32. */
static const uint8_t made_code[] = {0x48, 0x83, 0xec, 0x18, 0xff, 0xd7, 0x48, 0x83, 0xc4, 0x18, 0xc3};
static const uint8_t made_cie[] = {20, 0, 0, 0, 0, 0, 0, 0, 1, 'z', 'R', 0, 1, 0x78, 16, 1, 0x1b, 12, 7, 8, 0x80 | 16, 1, 0, 0};
static const uint8_t made_program[] = {0, 0x40 | 4, 14, 32, 0x40 | 6, 14, 8}; /* after no augmentation data */

static inline bool has_no_frame_pointer(unw_cursor_t *cursor) { return (void)cursor, false; }

static inline bool is_in_kernels_code(unw_cursor_t *cursor) { return (void)cursor, false; }

#else

#define LOCAL "_ULaarch64_"
#define OTHER "_Uaarch64_"
static const int saved[] = {UNW_AARCH64_X19, UNW_AARCH64_X20, UNW_AARCH64_X21, UNW_AARCH64_X22, UNW_AARCH64_X23, UNW_AARCH64_X24,
                            UNW_AARCH64_X25, UNW_AARCH64_X26, UNW_AARCH64_X27, UNW_AARCH64_X28, UNW_AARCH64_X29, UNW_AARCH64_X30,
                            UNW_AARCH64_SP};
enum { SMALL_STACK = 24000, REGISTERS = 98, KEPT_NUMBER = UNW_AARCH64_X19, GUESSES_ARE_THEIRS = 0 };
#define KEPT_NAME "x19"
/* The stack pointer and the address come after x30. */
#define REGISTER(CONTEXT, NUMBER) ((&(CONTEXT)->uc_mcontext.fault_address)[1 + (NUMBER)])
enum { GENERAL_REGISTERS = UNW_AARCH64_PC + 1 };

#define WITHOUT_ROW                                                                                                            \
    __asm__(".text\n.globl without_row\n.type without_row, %function\nwithout_row: hint #34\nstp x29, x30, [sp, #-16]!\nmov x29, sp\n" \
            "bl compare_guess\nldp x29, x30, [sp], #16\nret\n.size without_row, . - without_row\n")

/* The branch says how many instructions away the entry is. */
static inline unw_word_t entry_of_raise(void) {
    const uint32_t *branch;
    __asm__("adr %0, 1f\nb 2f\n1: bl raise\n2:" : "=r"(branch) : : "x30");
    return (unw_word_t)(branch + ((int32_t)(*branch << 6) >> 6));
}

static inline void come_to(unw_context_t *context, unw_word_t entry, unw_word_t *stack) {
    stack[0] = context->uc_mcontext.regs[30] = context->uc_mcontext.pc;
    context->uc_mcontext.pc = entry, context->uc_mcontext.sp = (unw_word_t)stack;
}
enum { PUSHED_BY_CALL = 0 };

/* sub sp, sp, #32; str x30, [sp]; blr x0; ldr x30, [sp]; add sp, sp, #32; ret. Return address in x30, the CFA is sp at
   first. */
static const uint8_t made_code[] = {0xff, 0x83, 0x00, 0xd1, 0xfe, 0x03, 0x00, 0xf9, 0x00, 0x00, 0x3f, 0xd6,
                                    0xfe, 0x03, 0x40, 0xf9, 0xff, 0x83, 0x00, 0x91, 0xc0, 0x03, 0x5f, 0xd6};
static const uint8_t made_cie[] = {20, 0, 0, 0, 0, 0, 0, 0, 1, 'z', 'R', 0, 1, 0x78, 30, 1, 0x1b, 12, 31, 0, 0, 0, 0, 0};
static const uint8_t made_program[] = {0, 0x40 | 4, 14, 32, 0x40 | 4, 0x80 | 30, 4, 0x40 | 8, 0xc0 | 30, 0x40 | 4, 14, 0};

/* libunwind 1.8 ends a walk at a frame whose x29 is 0, which later ones than 1.6 take for the last. */
static inline bool has_no_frame_pointer(unw_cursor_t *cursor) {
    unw_word_t value;
    return unw_get_reg(cursor, UNW_AARCH64_X29, &value) == 0 && value == 0;
}

/* A handler returns to code of the kernel's, or of qemu's, of which names may be known or not. */
static inline bool is_in_kernels_code(unw_cursor_t *cursor) { return unw_is_signal_frame(cursor) == 1; }

#endif

enum { SAVED = sizeof saved / sizeof *saved };

#endif
