/* For the tests of dwcheck-dl: what they need of the processor, in assembler. */
#ifndef DL_PROCESSOR_H
#define DL_PROCESSOR_H

#include <stdint.h>
#include <ucontext.h>

#define FUNCTION(NAME, CODE)                                                                                            \
    __asm__(".pushsection .text\n.type " NAME ", %function\n.globl " NAME "\n" NAME ":\n.cfi_startproc\n" CODE \
            "\n.cfi_endproc\n.size " NAME ", . - " NAME "\n.popsection")

/* A function that a signal interrupts at its first instruction, where the address before it belongs to another function;
   the signal's handler goes on after TRAP bytes. */
void traps(void);

/* A function that a signal interrupts where the caller's frame pointer, by its row, is below the stack pointer. */
void pops(void);

/* Calls `f` on another stack, and finds the way back by the frame pointer. */
void on_stack(void (*f)(void), void *top);

/* Calls `f`, has no rows, and keeps a frame pointer as gcc does: on aarch64, to the bottom of its frame. */
void without_rows(void (*f)(void));
#define DEFINE_WITHOUT_ROWS                                                                                             \
    __asm__(".pushsection .text\n.type without_rows, %function\n.globl without_rows\nwithout_rows:\n" CODE_WITHOUT_ROWS \
            "\n.size without_rows, . - without_rows\n.popsection")

#if defined(__x86_64__)

#define PC(CONTEXT) (((ucontext_t *)(CONTEXT))->uc_mcontext.gregs[REG_RIP])
enum { TRAP = 2 };

FUNCTION("traps", "ud2\nret");
FUNCTION("pops", "push %rbp\n.cfi_def_cfa_offset 16\n.cfi_offset %rbp, -16\nmov %rsp, %rbp\n.cfi_def_cfa_register %rbp\n"
                 "pop %rbp\n.cfi_def_cfa %rsp, 8\nud2\nret");
FUNCTION("on_stack", "push %rbp\n.cfi_def_cfa_offset 16\n.cfi_offset %rbp, -16\nmov %rsp, %rbp\n.cfi_def_cfa_register %rbp\n"
                     "mov %rsi, %rsp\ncall *%rdi\nmov %rbp, %rsp\npop %rbp\n.cfi_def_cfa %rsp, 8\nret");

#define CODE_WITHOUT_ROWS "push %rbp\nmov %rsp, %rbp\nsub $48, %rsp\ncall *%rdi\nleave\nret"

/* Returns to an address with another word where a return address would be, if it had been called. */
#define RETURN_TO(ADDRESS, WORD) __asm__ volatile("push %1\n\tpush %0\n\tret" : : "r"(ADDRESS), "r"(WORD) : "memory")

/* Code: push %rbp; mov %rsp, %rbp; call *%rdi; pop %rbp; ret. Its CIE: version 1, no augmentation, factors 1 and -8,
   register 16; the CFA is rsp + 8, the return address below it. Its FDE: after push, the CFA is rsp + 16, rbp below; after
   mov it is rbp + 16; before ret rsp + 8. */
static const uint8_t code[] = {0x55, 0x48, 0x89, 0xe5, 0xff, 0xd7, 0x5d, 0xc3};
#define CODE_CIE 1, 0, 1, 0x78, 16, 0x0c, 7, 8, 0x90, 1, 0, 0
#define CODE_FDE 0x41, 0x0e, 16, 0x86, 2, 0x43, 0x0d, 6, 0x43, 0x0c, 7, 8

#else

#define PC(CONTEXT) (((ucontext_t *)(CONTEXT))->uc_mcontext.pc)
enum { TRAP = 4 };

/* hint #34 is `bti c`. */
FUNCTION("traps", "udf #0\nret");
FUNCTION("pops", "hint #34\nstp x29, x30, [sp, #-16]!\n.cfi_def_cfa_offset 16\n.cfi_offset 29, -16\n.cfi_offset 30, -8\nmov x29, sp\n"
                 ".cfi_def_cfa_register 29\nldp x29, x30, [sp], #16\n.cfi_def_cfa 31, 0\nudf #0\nret");
FUNCTION("on_stack", "hint #34\nstp x29, x30, [sp, #-16]!\n.cfi_def_cfa_offset 16\n.cfi_offset 29, -16\n.cfi_offset 30, -8\nmov x29, sp\n"
                     ".cfi_def_cfa_register 29\nmov sp, x1\nblr x0\nmov sp, x29\nldp x29, x30, [sp], #16\n"
                     ".cfi_restore 29\n.cfi_restore 30\n.cfi_def_cfa 31, 0\nret");

#define CODE_WITHOUT_ROWS "hint #34\nstp x29, x30, [sp, #-64]!\nmov x29, sp\nblr x0\nldp x29, x30, [sp], #64\nret"

#define RETURN_TO(ADDRESS, WORD)                                                             \
    do {                                                                                     \
        register uint64_t link_ __asm__("x30") = (uint64_t)(WORD);                           \
        __asm__ volatile("br %0" : : "r"(ADDRESS), "r"(link_) : "memory");                   \
    } while (0)

/* Code: stp x29, x30, [sp, #-16]!; mov x29, sp; blr x0; ldp x29, x30, [sp], #16; ret. Its CIE: version 1, no
   augmentation, factors 1 and -8, register 30; the CFA is sp. Its FDE: after stp, the CFA is sp + 16, x29 and x30 below;
   after ldp, it is sp again, and both registers are restored. */
static const uint8_t code[] = {0xfd, 0x7b, 0xbf, 0xa9, 0xfd, 0x03, 0x00, 0x91, 0x00, 0x00, 0x3f, 0xd6,
                               0xfd, 0x7b, 0xc1, 0xa8, 0xc0, 0x03, 0x5f, 0xd6};
#define CODE_CIE 1, 0, 1, 0x78, 30, 0x0c, 31, 0, 0, 0, 0, 0
#define CODE_FDE 0x44, 0x0e, 16, 0x9d, 2, 0x9e, 1, 0x4c, 0xdd, 0xde, 0x0e, 0

#endif

#endif
