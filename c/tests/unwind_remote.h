/* What the tests of libunwind's calls for other processes share: a stack whose frames are known from the C library's backtrace,
   and accessors by which it is walked. The process is this one, whose memory they read as that of another. */
#ifndef UNWIND_REMOTE_H
#define UNWIND_REMOTE_H

#include "dwcheck-unwind.h"

#include <execinfo.h>
#include <link.h>
#include <setjmp.h>
#include <signal.h>
#include <stdbool.h>
#include <stdio.h>
#include <stdlib.h>
#include <string.h>
#include <sys/syscall.h>
#include <unistd.h>

/* What is of the processor: the name that libunwind gives a call, the registers of which walks know and those that are compared,
   where contexts have them, and a CIE. */
#if defined(__x86_64__)
#define NAME(call) "_Ux86_64_" #call
enum { REGISTERS = UNW_X86_64_RIP + 1, COMPARED = UNW_REG_LAST + 1, MOST_SEARCHES = 2, WITHOUT_PLACE = -1 };
static const int in_context[REGISTERS] = {REG_RAX, REG_RDX, REG_RCX, REG_RBX, REG_RSI, REG_RDI, REG_RBP, REG_RSP, REG_R8,
                                          REG_R9,  REG_R10, REG_R11, REG_R12, REG_R13, REG_R14, REG_R15, REG_RIP};
static inline uint64_t register_of(const unw_context_t *context, int number) {
    return (uint64_t)context->uc_mcontext.gregs[in_context[number]];
}
static inline bool is_last_of_theirs(unw_cursor_t *cursor) { return (void)cursor, false; }
static const uint8_t cie[20] = {16, 0, 0, 0, 0, 0, 0, 0, 1, 'z', 'R', 0, 1, 0x78, 16, 1, 0x1b, 0x0c, 7, 8};
#else
#define NAME(call) "_Uaarch64_" #call
enum { REGISTERS = UNW_AARCH64_PSTATE + 1, COMPARED = UNW_AARCH64_SP + 1, MOST_SEARCHES = 3 };
enum { WITHOUT_PLACE = UNW_AARCH64_SP /* of which libunwind 1.8 has none */ };
static inline uint64_t register_of(const unw_context_t *context, int number) {
    const struct unw_sigcontext *registers = &context->uc_mcontext;
    return number < UNW_AARCH64_SP ? registers->regs[number] : number == UNW_AARCH64_SP ? registers->sp
           : number == UNW_AARCH64_PC ? registers->pc : registers->pstate;
}
/* libunwind 1.8 ends a walk at a frame whose x29 is 0. */
static inline bool is_last_of_theirs(unw_cursor_t *cursor) {
    unw_word_t value;
    return unw_get_reg(cursor, UNW_AARCH64_X29, &value) == 0 && value == 0;
}
static const uint8_t cie[20] = {16, 0, 0, 0, 0, 0, 0, 0, 1, 'z', 'R', 0, 1, 0x78, 30, 1, 0x1b, 0x0c, 31, 0};
#endif
/* Under qemu-user, for which EMULATED is defined, there is no ptrace, and all takes longer. */
#if defined(EMULATED)
enum { HAS_PTRACE = 0, WALKS = 200, LIES_TOLD = 300, RECORDS = 800 };
#else
enum { HAS_PTRACE = 1, WALKS = 2000, LIES_TOLD = 3000, RECORDS = 8000 };
#endif

enum { ROOM = 100, FAILURE = -77, MOST_WORDS_OF_A_STEP = 4096 };
static int wrong, checks;
#define IS(what, want)                                                                                      \
    do {                                                                                                    \
        long long is_ = (long long)(what), want_ = (long long)(want);                                       \
        checks++;                                                                                           \
        if (is_ != want_ && wrong++ < 40) printf("%d: %s is %llx, not %llx\n", __LINE__, #what, is_, want_); \
    } while (0)

static unsigned long random_state = 20261201;
static unsigned long any(void) { /* xorshift64* */
    random_state ^= random_state >> 12, random_state ^= random_state << 25, random_state ^= random_state >> 27;
    return random_state * 0x2545f4914f6cdd1d;
}

/* ---- the accessors ---- */

/* What an accessor does at the word of the number `trouble_at`. */
enum trouble { NO_TROUBLE, FAILS, LIES, STEPS, LEAVES };

static struct {
    uint64_t registers[REGISTERS];
    int pipe[2];
    enum trouble trouble;
    long asked, trouble_at, searches;
    unw_cursor_t *cursor;
    jmp_buf out;
    uint64_t words[MOST_WORDS_OF_A_STEP]; /* that the step has asked for */
    size_t count;
    bool is_silent; /* words may be asked for twice */
} target;

/* The step within a step asks for the same words. */
static void step_within(void) {
    target.is_silent = true;
    unw_step(target.cursor);
    target.is_silent = false;
    target.count = 0;
}

static int make_trouble(unw_word_t *value) {
    const enum trouble trouble = target.trouble;
    target.trouble = trouble == LIES ? LIES : NO_TROUBLE;
    if (trouble == FAILS) return FAILURE;
    if (trouble == LIES) *value = any() % 2 ? any() : *value + any() % 64;
    if (trouble == STEPS) step_within();
    if (trouble == LEAVES) longjmp(target.out, 1);
    return 0;
}

/* Counts the words that a step asks for twice. */
static void note(uint64_t address) {
    for (size_t i = 0; i < target.count; i++) IS(target.words[i] == address, 0);
    if (target.count < MOST_WORDS_OF_A_STEP) target.words[target.count++] = address;
}

/* The kernel says what can be read, when it copies that into a pipe. Sanitizers would see the call of the C library. */
static bool copy(uint64_t address, unw_word_t *value) {
    return syscall(SYS_write, target.pipe[1], (const void *)address, sizeof *value) == (long)sizeof *value
           && read(target.pipe[0], value, sizeof *value) == (ssize_t)sizeof *value;
}

static int access_mem(unw_addr_space_t space, unw_word_t address, unw_word_t *value, int is_write, void *context) {
    (void)space, (void)context;
    if (is_write) return -UNW_EINVAL;
    if (target.trouble != LIES && !target.is_silent) note(address);
    if (!copy(address, value)) return -UNW_EINVAL;
    const bool is_now = target.trouble == LIES ? any() % 16 == 0 : target.asked == target.trouble_at;
    target.asked++;
    return is_now ? make_trouble(value) : 0;
}

static int access_reg(unw_addr_space_t space, unw_regnum_t number, unw_word_t *value, int is_write, void *context) {
    (void)space, (void)context;
    if (is_write || number < 0 || number >= REGISTERS) return -UNW_EBADREG;
    *value = target.registers[number];
    return 0;
}

struct wanted { unw_word_t address; unw_dyn_info_t table; };

/* Describes the table of the module that has an address. */
static int find_table(struct dl_phdr_info *info, size_t size, void *data) {
    struct wanted *wanted = data;
    uint64_t header = 0, first = UINT64_MAX, end = 0;
    uint32_t count;
    (void)size;
    for (int i = 0; i < info->dlpi_phnum; i++) {
        const ElfW(Phdr) *part = &info->dlpi_phdr[i];
        const uint64_t at = info->dlpi_addr + part->p_vaddr;
        if (part->p_type == PT_GNU_EH_FRAME) header = at;
        if (part->p_type == PT_LOAD && at < first) first = at;
        if (part->p_type == PT_LOAD && at + part->p_memsz > end) end = at + part->p_memsz;
    }
    if (header == 0 || wanted->address < first || wanted->address >= end) return 0;
    memcpy(&count, (const void *)(header + 8), sizeof count);
    wanted->table = (unw_dyn_info_t){.start_ip = first, .end_ip = end, .format = UNW_INFO_FORMAT_REMOTE_TABLE};
    wanted->table.u.rti.segbase = header, wanted->table.u.rti.table_data = header + 12, wanted->table.u.rti.table_len = count;
    return 1;
}

/* The search: ours or libunwind's. */
static int (*search_table)(unw_addr_space_t, unw_word_t, unw_dyn_info_t *, unw_proc_info_t *, int, void *) = dwarf_search_unwind_table;

static int find_proc_info(unw_addr_space_t space, unw_word_t address, unw_proc_info_t *info, int need_unwind_info, void *context) {
    struct wanted wanted = {.address = address};
    target.searches++;
    if (!dl_iterate_phdr(find_table, &wanted)) return -UNW_ENOINFO;
    return search_table(space, address, &wanted.table, info, need_unwind_info, context);
}

static unw_accessors_t accessors = {.find_proc_info = find_proc_info, .access_mem = access_mem, .access_reg = access_reg};

static unw_addr_space_t new_space(unw_caching_policy_t policy) {
    unw_addr_space_t space = unw_create_addr_space(&accessors, 0);
    if (!space) printf("no address space\n"), exit(2);
    IS(unw_set_caching_policy(space, policy), 0);
    return space;
}

/* ---- a stack, and its frames ---- */

static void *frames[ROOM]; /* the return addresses of the stack, from the function `at_stack` on */
static int frame_count;

static uint64_t address_of(unw_cursor_t *cursor) {
    unw_word_t address = 0;
    unw_get_reg(cursor, UNW_REG_IP, &address);
    return address;
}

static int step(unw_cursor_t *cursor) {
    target.count = 0;
    return unw_step(cursor);
}

static void begin(unw_cursor_t *cursor, unw_addr_space_t space, enum trouble trouble, long at) {
    memset(cursor, 0, sizeof *cursor); /* also what a walk leaves as it is */
    target.cursor = cursor, target.trouble = trouble, target.trouble_at = at, target.asked = 0;
    IS(unw_init_remote(cursor, space, NULL), 0);
}

/* ---- the stack ---- */

/* What is tried on the stack. */
static void try_all(void);

/* Walks begin here: in the handler of a signal that has interrupted a callback of the C library. */
static __attribute__((noinline)) void at_stack(int signal) {
    unw_context_t context;
    (void)signal;
    frame_count = backtrace(frames, ROOM);
    unw_getcontext(&context);
    for (int i = 0; i < REGISTERS; i++) target.registers[i] = register_of(&context, i);
    try_all();
}

static int compare(const void *one, const void *other) {
    if (frame_count == 0) raise(SIGUSR1);
    return *(const int *)one - *(const int *)other;
}

static __attribute__((noinline)) int deeper(int depth) {
    int numbers[2] = {2, 1};
    if (depth > 0) return deeper(depth - 1) + 1;
    qsort(numbers, 2, sizeof *numbers, compare);
    return numbers[0];
}

/* A frame whose size depends on its own contents, so that the frame pointer leads to it. */
static __attribute__((noinline)) int with_room(int size) {
    volatile char *room = __builtin_alloca((size_t)size);
    room[0] = 1;
    return deeper(20) + room[0];
}

static int on_the_stack(int argc) {
    if (pipe(target.pipe)) return 2;
    signal(SIGUSR1, at_stack);
    with_room(argc * 100);
    printf("%d checks: %d wrong\n", checks, wrong);
    return wrong != 0;
}

#endif
