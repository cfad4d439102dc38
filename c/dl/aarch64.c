/* What walks need to know of aarch64: its registers, its signals and its calls. */
#if defined(__aarch64__)
#define _GNU_SOURCE
#include "memory.h"
#include "processor.h"

#include <string.h>
#include <sys/auxv.h>

enum { FIRST = 19, FP = 29, LR = 30, SP = 31, INSTRUCTION = 4 };

/* ---- functions in assembler. hint #34 is `bti c`, hint #25 `paciasp` and hint #29 `autiasp`, for any assembler. */

/* A function NAME that calls NAME_here with one more argument, in REGISTER: a place, which is that of its caller. It
   is in assembler, since the contents of the registers at its first instruction are needed, and so that it is no
   frame itself. */
#define FROM_CALLER(NAME, REGISTER)                                                                          \
    __asm__(".pushsection .text\n.balign 4\n.globl " NAME "\n.type " NAME ", %function\n" NAME ":\n.cfi_startproc\n" \
            "hint #34\n"                                                                                     \
            "mov x9, x30\n"                                                                                  \
            "hint #25\n.cfi_negate_ra_state\n"                                                               \
            "stp x29, x30, [sp, #-16]!\n.cfi_def_cfa_offset 16\n.cfi_offset 29, -16\n.cfi_offset 30, -8\n"   \
            "add x10, sp, #16\n"                                                                             \
            "sub sp, sp, #128\n.cfi_def_cfa_offset 144\n"                                                    \
            "stp x9, x9, [sp]\n"                                                                             \
            "stp x10, x19, [sp, #16]\nstp x20, x21, [sp, #32]\nstp x22, x23, [sp, #48]\n"                    \
            "stp x24, x25, [sp, #64]\nstp x26, x27, [sp, #80]\nstp x28, x29, [sp, #96]\nstr xzr, [sp, #112]\n" \
            "add x29, sp, #128\n"                                                                            \
            "mov " REGISTER ", sp\n"                                                                         \
            "bl " NAME "_here\n"                                                                             \
            "add sp, sp, #128\n.cfi_def_cfa_offset 16\n"                                                     \
            "ldp x29, x30, [sp], #16\n.cfi_def_cfa_offset 0\n.cfi_restore 29\n.cfi_restore 30\n"             \
            "hint #29\n.cfi_negate_ra_state\nret\n"                                                          \
            ".cfi_endproc\n.size " NAME ", . - " NAME "\n.popsection")
FROM_CALLER("dwcheck_dl_backtrace", "x2");
FROM_CALLER("dwcheck_dl_walk", "x3");
FROM_CALLER("dwcheck_dl_frames", "x3");
_Static_assert(offsetof(dwcheck_dl_place, stack_pointer) == 16 && offsetof(dwcheck_dl_place, x19_to_x30) == 24
                   && sizeof(dwcheck_dl_place) == 120,
               "FROM_CALLER writes these");

__asm__(".pushsection .text\n.balign 4\n.hidden dwcheck_dl_call_on\n.globl dwcheck_dl_call_on\n.type dwcheck_dl_call_on, %function\n"
        "dwcheck_dl_call_on:\n.cfi_startproc\nhint #25\n.cfi_negate_ra_state\n"
        "stp x29, x30, [sp, #-16]!\n.cfi_def_cfa_offset 16\n.cfi_offset 29, -16\n.cfi_offset 30, -8\n"
        "mov x29, sp\n.cfi_def_cfa_register 29\nmov sp, x2\nblr x1\nmov sp, x29\n.cfi_def_cfa_register 31\n"
        "ldp x29, x30, [sp], #16\n.cfi_def_cfa_offset 0\n.cfi_restore 29\n.cfi_restore 30\nhint #29\n.cfi_negate_ra_state\n"
        "ret\n.cfi_endproc\n.size dwcheck_dl_call_on, . - dwcheck_dl_call_on\n.popsection");

uint64_t dwcheck_dl_ask_valgrind(const volatile uint64_t question[6]) {
    register uint64_t answer __asm__("x3") = 0;
    register const volatile uint64_t *asked __asm__("x4") = question;
    __asm__ volatile("ror x12, x12, #3\n\tror x12, x12, #13\n\tror x12, x12, #51\n\tror x12, x12, #61\n\torr x10, x10, x10"
                     : "+r"(answer)
                     : "r"(asked)
                     : "cc", "memory");
    return answer;
}

/* ---- registers */

/* The bits of a return address that may have a signature: those that xpaclri takes out of x30. It is a hint, hint #7, and
   does nothing on processors without signatures. Bit 55 is that of the kernel's addresses. */
static uint64_t bits_of_signatures(void) {
    const uint64_t all = ~((uint64_t)1 << 55);
    register uint64_t stripped __asm__("x30") = all;
    __asm__("hint #7" : "+r"(stripped));
    return all ^ stripped;
}

uint64_t dwcheck_dl_unsigned(uint64_t return_address) { return return_address & ~bits_of_signatures(); }

dwcheck_state dwcheck_dl_state_of(const dwcheck_block *stack) {
    static const uint16_t kept[] = {19, 20, 21, 22, 23, 24, 25, 26, 27, 28, FP, LR};
    return (dwcheck_state){.blocks = stack, .blocks_length = 1, .kept = kept, .kept_length = sizeof kept / sizeof *kept,
                           .stack_pointer = SP, .has_stack_pointer = 1, .signed_bits = bits_of_signatures()};
}

static void know(dwcheck_cursor *cursor, int number, uint64_t value) {
    cursor->contents[number] = value, cursor->known[number] = 1;
}

/* In a frame that has made a call, x30 isn't known: the call has put its own return address there. */
uint32_t dwcheck_dl_cursor_at_place(dwcheck_cursor *cursor, const dwcheck_dl_place *place) {
    const bool is_exact = place->key == place->address + 1;
    if (!is_exact && place->key != place->address) return DWCHECK_NO_PLACE;
    memset(cursor, 0, sizeof *cursor);
    cursor->address = place->address;
    cursor->stage = is_exact ? DWCHECK_CURSOR_EXACT : DWCHECK_CURSOR_CALLER;
    know(cursor, SP, place->stack_pointer);
    for (int number = FIRST; number < LR + is_exact; number++) know(cursor, number, place->x19_to_x30[number - FIRST]);
    return DWCHECK_DONE;
}

uint32_t dwcheck_dl_place_of_cursor(dwcheck_dl_place *place, const dwcheck_cursor *cursor) {
    if (cursor->stage > DWCHECK_CURSOR_CALLER) return DWCHECK_NONE;
    const bool is_exact = cursor->stage == DWCHECK_CURSOR_EXACT;
    if (!cursor->known[SP] || (is_exact && cursor->address == UINT64_MAX)) return DWCHECK_NO_PLACE;
    dwcheck_dl_place found = {.address = cursor->address, .key = cursor->address + is_exact, .stack_pointer = cursor->contents[SP]};
    for (int number = FIRST; number < LR + is_exact; number++) {
        if (!cursor->known[number]) return DWCHECK_NO_PLACE;
        found.x19_to_x30[number - FIRST] = cursor->contents[number];
    }
    *place = found;
    return DWCHECK_DONE;
}

/* ---- signals */

dwcheck_dl_place dwcheck_dl_place_of_context(const ucontext_t *context) {
    const uint64_t address = context->uc_mcontext.pc;
    dwcheck_dl_place place = {.address = address, .key = address + 1, .stack_pointer = context->uc_mcontext.sp};
    for (int number = FIRST; number <= LR; number++) place.x19_to_x30[number - FIRST] = context->uc_mcontext.regs[number];
    return place;
}

uint64_t dwcheck_dl_address_of_context(const ucontext_t *context) { return context->uc_mcontext.pc; }

void dwcheck_dl_know_context(dwcheck_cursor *cursor, const ucontext_t *context) {
    for (int number = 0; number <= LR; number++) know(cursor, number, context->uc_mcontext.regs[number]);
    know(cursor, SP, context->uc_mcontext.sp);
}

/* The class of the exception, which newer kernels write among the records after the registers; 0 if there is none. */
static uint64_t class_of_exception(const ucontext_t *context) {
    enum { MAGIC = 0x45535201, CLASS = 26 };
    const uint8_t *records = context->uc_mcontext.__reserved;
    struct { uint32_t magic, size; uint64_t syndrome; } record;
    for (size_t at = 0; at + sizeof record <= sizeof context->uc_mcontext.__reserved; at += record.size) {
        memcpy(&record, records + at, sizeof record);
        if (record.magic == MAGIC) return record.syndrome >> CLASS & 63;
        if (record.magic == 0 || record.size < 8 || record.size % 8 != 0) return 0;
    }
    return 0;
}

/* The address of the fault is that of the instruction. What the kernel said of an earlier fault stays in the context of
   later signals, so it must be the same address, and the exception, if it is known, one of fetching: that isn't
   allowed, or the address is no multiple of 4. */
bool dwcheck_dl_is_nowhere(const ucontext_t *context) {
    enum { UNKNOWN = 0, OF_FETCH = 0x20, OF_ALIGNMENT = 0x22 };
    const uint64_t class = class_of_exception(context);
    return context->uc_mcontext.fault_address == context->uc_mcontext.pc
           && (class == UNKNOWN || class == OF_FETCH || class == OF_ALIGNMENT);
}

const uint32_t dwcheck_dl_return_of_signal[] = {0xd2801168, 0xd4000001};

/* They return to the system call rt_sigreturn: in the vDSO, for which no row is, or in a C library. */
bool dwcheck_dl_is_return_of_signal(uint64_t address) {
    return address % INSTRUCTION == 0
           && dwcheck_dl_is_code(address, dwcheck_dl_return_of_signal, sizeof dwcheck_dl_return_of_signal);
}

/* ---- code */

/* Instructions whose bits of a mask are these. */
struct pattern {
    uint32_t mask, code;
};

static bool is_among(const struct pattern *patterns, size_t count, uint32_t word) {
    for (size_t i = 0; i < count; i++)
        if ((word & patterns[i].mask) == patterns[i].code) return true;
    return false;
}

/* These are bl, blr, and blr that authenticates with or without a modifier. */
bool dwcheck_dl_is_call(uint32_t instruction) {
    static const struct pattern calls[] = {
        {0xfc000000, 0x94000000}, {0xfffffc1f, 0xd63f0000}, {0xfffff81f, 0xd63f081f}, {0xfffff800, 0xd73f0800}};
    return is_among(calls, sizeof calls / sizeof *calls, instruction);
}

bool dwcheck_dl_follows_call(uint64_t address) {
    uint32_t word;
    if (address % INSTRUCTION != 0 || address < INSTRUCTION || !dwcheck_dl_is_readable(address - INSTRUCTION)) return false;
    memcpy(&word, (const void *)(uintptr_t)(address - INSTRUCTION), sizeof word);
    return dwcheck_dl_is_call(word);
}

/* Linkers write no rows for such entries. One is: bti c; adrp x16; ldr x17, [x16, ..]; add x16, x16, ..; autia1716; br x17;
   and nop. The first entry begins with stp x16, x30, [sp, #-16]!. */
int dwcheck_dl_pushed_in_linkage_table(const uint32_t *at) {
    enum { LONGEST = DWCHECK_DL_NEAR, BRANCH = 0xd61f0220, SAVES = 0xa9bf7bf0, SAVED = 16 };
    static const struct pattern entry[] = {{0xffffffff, 0xd503245f}, {0x9f00001f, 0x90000010}, {0xffc003ff, 0xf9400211},
                                           {0xffc003ff, 0x91000210}, {0xffffffff, 0xd503219f}, {0xffffffff, 0xd503201f}};
    int before = 0, after = 0;
    if (at[0] == SAVES) after++;
    while (after < LONGEST && is_among(entry, sizeof entry / sizeof *entry, at[after])) after++;
    while (before < LONGEST - 1 && is_among(entry, sizeof entry / sizeof *entry, at[-1 - before])) before++;
    return at[after] != BRANCH ? -1 : at[0] != SAVES && at[-1 - before] == SAVES ? SAVED : 0;
}

static bool is_in_vdso(uint64_t address) {
    struct dwcheck_dl_object object;
    return dwcheck_dl_find(address, &object) && object.first == getauxval(AT_SYSINFO_EHDR);
}

int dwcheck_dl_pushed_without_row(uint64_t address) {
    enum { NEAR = DWCHECK_DL_NEAR * INSTRUCTION };
    if (address % INSTRUCTION != 0 || !dwcheck_dl_is_readable(address)) return -1;
    if (is_in_vdso(address)) return 0;
    if (!dwcheck_dl_is_readable(address - NEAR) || !dwcheck_dl_is_readable(address + NEAR)) return -1;
    return dwcheck_dl_pushed_in_linkage_table((const uint32_t *)(uintptr_t)address);
}

/* The call has put it into x30. */
uint64_t dwcheck_dl_return_address(const dwcheck_dl_place *place, dwcheck_block *stack) {
    (void)stack;
    return dwcheck_dl_unsigned(place->x19_to_x30[LR - FIRST]);
}

void dwcheck_dl_leave_call(dwcheck_dl_place *place, uint64_t return_address) { dwcheck_dl_continue_at(place, return_address); }

#endif
