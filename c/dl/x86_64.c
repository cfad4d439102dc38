/* What walks need to know of x86-64: its registers, its signals and its calls. */
#if defined(__x86_64__)
#define _GNU_SOURCE
#include "memory.h"
#include "processor.h"

#include <string.h>

enum { WORD = 8, RSP = 7, RIP = 16 };

/* ---- functions in assembler */

/* A function NAME that calls NAME_here with one more argument, in REGISTER: a place, which is that of its caller. It
   is in assembler, since the contents of the registers at its first instruction are needed, and so that it is no
   frame itself. */
#define FROM_CALLER(NAME, REGISTER)                                                                          \
    __asm__(".pushsection .text\n.globl " NAME "\n.type " NAME ", @function\n" NAME ":\n.cfi_startproc\n"   \
            "endbr64\n"                                                                                      \
            "subq $88, %rsp\n.cfi_adjust_cfa_offset 88\n"                                                    \
            "movq 88(%rsp), %rax\nmovq %rax, (%rsp)\nmovq %rax, 8(%rsp)\n"                                   \
            "leaq 96(%rsp), %rax\nmovq %rax, 16(%rsp)\n"                                                     \
            "movq %rbx, 24(%rsp)\nmovq %rbp, 32(%rsp)\nmovq %r12, 40(%rsp)\n"                                \
            "movq %r13, 48(%rsp)\nmovq %r14, 56(%rsp)\nmovq %r15, 64(%rsp)\n"                                \
            "movq %rsp, %" REGISTER "\n"                                                                     \
            "call " NAME "_here\n"                                                                           \
            "addq $88, %rsp\n.cfi_adjust_cfa_offset -88\nret\n"                                              \
            ".cfi_endproc\n.size " NAME ", . - " NAME "\n.popsection")
FROM_CALLER("dwcheck_dl_backtrace", "rdx");
FROM_CALLER("dwcheck_dl_walk", "rcx");
FROM_CALLER("dwcheck_dl_frames", "rcx");
_Static_assert(offsetof(dwcheck_dl_place, stack_pointer) == 16 && offsetof(dwcheck_dl_place, rbp) == 32
                   && offsetof(dwcheck_dl_place, r15) == 64 && sizeof(dwcheck_dl_place) == 72,
               "FROM_CALLER writes these");

__asm__(".pushsection .text\n.hidden dwcheck_dl_call_on\n.globl dwcheck_dl_call_on\n.type dwcheck_dl_call_on, @function\n"
        "dwcheck_dl_call_on:\n.cfi_startproc\nendbr64\npush %rbp\n.cfi_def_cfa_offset 16\n.cfi_offset %rbp, -16\n"
        "mov %rsp, %rbp\n.cfi_def_cfa_register %rbp\nmov %rdx, %rsp\ncall *%rsi\nmov %rbp, %rsp\npop %rbp\n"
        ".cfi_def_cfa %rsp, 8\nret\n.cfi_endproc\n.size dwcheck_dl_call_on, . - dwcheck_dl_call_on\n.popsection");

uint64_t dwcheck_dl_ask_valgrind(const volatile uint64_t question[6]) {
    uint64_t answer = 0;
    __asm__ volatile("rolq $3, %%rdi\n\trolq $13, %%rdi\n\trolq $61, %%rdi\n\trolq $51, %%rdi\n\txchgq %%rbx, %%rbx"
                     : "+d"(answer)
                     : "a"(question)
                     : "cc", "memory");
    return answer;
}

/* ---- registers */

dwcheck_state dwcheck_dl_state_of(const dwcheck_block *stack) {
    static const uint16_t kept[] = {3, 6, 12, 13, 14, 15};
    return (dwcheck_state){.blocks = stack, .blocks_length = 1, .kept = kept, .kept_length = sizeof kept / sizeof *kept,
                           .stack_pointer = RSP, .has_stack_pointer = 1};
}

uint64_t dwcheck_dl_unsigned(uint64_t return_address) { return return_address; }

uint32_t dwcheck_dl_cursor_at_place(dwcheck_cursor *cursor, const dwcheck_dl_place *place) {
    return dwcheck_cursor_at_place(cursor, place);
}

uint32_t dwcheck_dl_place_of_cursor(dwcheck_dl_place *place, const dwcheck_cursor *cursor) {
    return dwcheck_place_of_cursor(place, cursor);
}

/* ---- signals */

dwcheck_dl_place dwcheck_dl_place_of_context(const ucontext_t *context) {
    uint64_t r[NGREG];
    memcpy(r, context->uc_mcontext.gregs, sizeof r);
    return (dwcheck_dl_place){.address = r[REG_RIP], .key = r[REG_RIP] + 1, .stack_pointer = r[REG_RSP],
                              .rbx = r[REG_RBX], .rbp = r[REG_RBP], .r12 = r[REG_R12],
                              .r13 = r[REG_R13], .r14 = r[REG_R14], .r15 = r[REG_R15]};
}

uint64_t dwcheck_dl_address_of_context(const ucontext_t *context) { return (uint64_t)context->uc_mcontext.gregs[REG_RIP]; }

void dwcheck_dl_know_context(dwcheck_cursor *cursor, const ucontext_t *context) {
    static const int registers[] = {REG_RAX, REG_RDX, REG_RCX, REG_RBX, REG_RSI, REG_RDI, REG_RBP, REG_RSP, REG_R8,
                                    REG_R9,  REG_R10, REG_R11, REG_R12, REG_R13, REG_R14, REG_R15, REG_RIP};
    for (int i = 0; i <= RIP; i++)
        cursor->contents[i] = (uint64_t)context->uc_mcontext.gregs[registers[i]], cursor->known[i] = 1;
}

/* The processor says that it was to fetch the instruction there. What it said of an earlier interruption stays in the
   context of later ones, so it must have been at the same address. */
bool dwcheck_dl_is_nowhere(const ucontext_t *context) {
    enum { PAGE_FAULT = 14, OF_FETCH = 1 << 4 };
    const greg_t *registers = context->uc_mcontext.gregs;
    return registers[REG_TRAPNO] == PAGE_FAULT && registers[REG_ERR] & OF_FETCH && registers[REG_CR2] == registers[REG_RIP];
}

/* They return to the system call rt_sigreturn. */
bool dwcheck_dl_is_return_of_signal(uint64_t address) {
    static const uint8_t code[] = {0x48, 0xc7, 0xc0, 15, 0, 0, 0, 0x0f, 0x05}; /* mov $15, %rax; syscall */
    return dwcheck_dl_is_code(address, code, sizeof code);
}

/* ---- calls */

/* The length of an instruction ff whose operand byte is this one. */
static int length_of(uint8_t operand) {
    int kind = operand >> 6, has_index = (operand & 7) == 4 && kind != 3;
    int displacement = kind == 2 || (kind == 0 && (operand & 7) == 5) ? 4 : kind == 1;
    return 2 + has_index + displacement;
}

/* A near call is e8 and four bytes; or ff, a byte whose middle bits are 2, and what this byte says that follows. */
bool dwcheck_dl_follows_call(uint64_t address) {
    enum { LONGEST = 7, DIRECT = 5 };
    if (address < LONGEST || !dwcheck_dl_is_readable(address - LONGEST) || !dwcheck_dl_is_readable(address - 1)) return false;
    const uint8_t *end = (const uint8_t *)(uintptr_t)address;
    if (end[-DIRECT] == 0xe8) return true;
    for (int length = 2; length <= LONGEST; length++)
        if (end[-length] == 0xff && (end[1 - length] >> 3 & 7) == 2 && length_of(end[1 - length]) == length) return true;
    return false;
}

/* Linkers write rows for procedure linkage tables, and the vDSO has some. */
int dwcheck_dl_pushed_without_row(uint64_t address) { return (void)address, -1; }

/* The call has pushed it. */
uint64_t dwcheck_dl_return_address(const dwcheck_dl_place *place, dwcheck_block *stack) {
    uint64_t word;
    if (!dwcheck_dl_has(stack, place->stack_pointer, WORD)) return 0;
    memcpy(&word, (const void *)(uintptr_t)place->stack_pointer, sizeof word);
    return word;
}

void dwcheck_dl_leave_call(dwcheck_dl_place *place, uint64_t return_address) {
    dwcheck_dl_continue_at(place, return_address);
    place->stack_pointer += WORD;
}

#endif
